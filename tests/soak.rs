//! Ten thousand tickets, and texts that are refused between them, through one process: each goes through every operation, over buffers that
//! are lent again and again. The answers must be those of the implementation that is written from document 01, and after the first tenth
//! the process must not grow, by no page and by no byte of heap. Usage: soak [NUMBER OF TICKETS [SEED]]. The same tickets in every run with the same seed.
mod arbitrary;
mod assume;
mod footprint;
mod host;
mod library;
mod logic;
mod magic;
mod mangle;
mod parts;
mod random;
mod reference;
mod report;
mod slip;
mod stages;
mod tickets;
mod walk;

use footprint::Footprint;
use host::{Host, BY_PARTS, ENGINES, WITH_FACTS, WITH_SESSION};
use library::{fit, packed, said, FITTING};
use random::Random;
use reference::{Ticket, MOST_CLAUSES, STALE_SLIP};
use report::{same, same_answer, Report};
use stages::Staged;
use walk::{walk, Outcome, Relevancy, Verdict};

const TICKETS: u64 = 10_000;
const SEED: u64 = 601;

/// Walks are cut after this many entries.
const LONG: u64 = 300;

/// The most facts that are open.
const FACTS: usize = 2;

fn main() {
    let mut arguments = std::env::args().skip(1).map(|word| word.parse().expect("the arguments are numbers"));
    let tickets = arguments.next().unwrap_or(TICKETS);
    let random = &mut Random::new(arguments.next().unwrap_or(SEED));
    if let Err(report) = soak(&jobs(random, tickets)) {
        println!("{report}\nsoak: FAILED");
        std::process::exit(1);
    }
}

/// Serves all, which takes no memory itself.
fn soak(jobs: &[Job]) -> Result<(), Report> {
    let host = Host { facts: Vec::with_capacity(FACTS), ..Host::new() };
    let mut soak = Soak { host, calls: 0, refused: 0, verdicts: [0; 3] };
    let (first, rest) = jobs.split_at(jobs.len() / 10);
    footprint::settle();
    first.iter().try_for_each(|job| soak.serve(job))?;
    let before = Footprint::now();
    rest.iter().try_for_each(|job| soak.serve(job))?;
    let after = Footprint::now();
    let [none, fits, spent] = soak.verdicts;
    println!("soak: none {none}, fits {fits}, spent {spent}, and {} texts refused: {} calls", soak.refused, soak.calls);
    println!("soak: the process has {before} after a tenth of them, and {after} after the last");
    same("whether a verdict never came", false, soak.verdicts.contains(&0))?;
    same("whether the process has grown", false, after.is_larger_than(&before))
}

/// A text, what reading it answers, and if it is accepted, what the other operations do.
struct Job {
    text: Vec<u8>,
    read: u64,
    accepted: Option<Answers>,
}

/// The text with the rule that is offered and set is `longer`, where offering does not refuse it. With these facts open `assumed` is said, with
/// `counts`; by parts there is a verdict with a sum.
struct Answers {
    rewrite: u64,
    fit: u64,
    verdict: Verdict,
    staged: Outcome,
    rule: Vec<u8>,
    offer: u64,
    longer: Vec<u8>,
    facts: Vec<u32>,
    assumed: u64,
    counts: [u32; 2],
    by_parts: (Verdict, u64),
}

/// The first has the longest path there is, and so needs the most stack.
fn jobs(random: &mut Random, tickets: u64) -> Vec<Job> {
    let mut jobs = vec![Job::of_ticket(&tickets::deep(32, 1, 1024))];
    let mut accepted = 1;
    while accepted < tickets {
        let job = Job::of_text(arbitrary::text(random));
        accepted += job.accepted.is_some() as u64;
        jobs.push(job);
    }
    jobs
}

impl Job {
    fn of_text(text: Vec<u8>) -> Job {
        match reference::read(&text) {
            Ok(ticket) => {
                let longer = assume::with_facts(&ticket, &facts_of(&ticket));
                let parts = parts::parts(&ticket).into_iter().map(|part| part.ticket);
                let limit = parts.chain([longer]).map(|ticket| arbitrary::quick_limit(&ticket, LONG)).fold(arbitrary::quick_limit(&ticket, LONG), u32::min);
                Job::of_ticket(&Ticket { limit: limit.to_be_bytes(), ..ticket })
            }
            Err(refusal) => Job { text, read: packed(refusal.number, refusal.line), accepted: None },
        }
    }

    fn of_ticket(ticket: &Ticket) -> Job {
        let outcome = walk(&Relevancy::new(ticket), u32::from_be_bytes(ticket.limit), &mut |_, _| {});
        let rules: usize = magic::rewritten(ticket).iter().map(Vec::len).sum();
        let (rewrite, fit, verdict) = (packed(0, rules as u32), fit(outcome.verdict as u8, outcome.count, outcome.deepest), outcome.verdict);
        let text = reference::print(ticket);
        let rule = ticket.clauses.first().map_or(vec![slip::CLAUSE, 0, 0], reference::clause_frame);
        let offer = packed(slip::next_clause(ticket, &rule).map_or_else(slip::Why::number, |_| 0), 0);
        let facts = facts_of(ticket);
        let with_all = || walk(&Relevancy::new(&assume::with_facts(ticket, &facts)), u32::from_be_bytes(ticket.limit), &mut |_, _| {});
        let told = assume::told(&outcome, with_all);
        let (assumed, counts) = (said(told.said as u8), told.counts);
        let of_part = |_, part: &parts::Part| walk(&Relevancy::new(&part.ticket), u32::from_be_bytes(ticket.limit), &mut |_, _| {});
        let told = parts::told(ticket, &parts::parts(ticket), of_part);
        let by_parts = (told.verdict, told.count);
        let staged = walk(&Staged::new(ticket), u32::from_be_bytes(ticket.limit), &mut |_, _| {});
        let answers = Answers { rewrite, fit, verdict, staged, longer: slip::text_with(&text, &rule), rule, offer, facts, assumed, counts, by_parts };
        Job { text, read: packed(0, 0), accepted: Some(answers) }
    }
}

/// The last atom and the first one, where there is room for them.
fn facts_of(ticket: &Ticket) -> Vec<u32> {
    let atoms = ticket.atoms() as u32;
    let mut facts = if atoms > 1 { vec![atoms - 1, 0] } else { (0..atoms).collect() };
    facts.truncate(MOST_CLAUSES - ticket.clauses.len());
    facts
}

/// A host, and what it has met.
struct Soak {
    host: Host,
    calls: u64,
    refused: u64,
    verdicts: [u64; 3],
}

impl Soak {
    fn serve(&mut self, job: &Job) -> Result<(), Report> {
        self.call(job, job.read, |host| host.read(&job.text))?;
        let Some(answers) = &job.accepted else {
            self.refused += 1;
            return Ok(());
        };
        self.verdicts[answers.verdict as usize] += 1;
        self.call(job, packed(0, job.text.len() as u32), Host::write)?;
        same("the text written", &job.text[..], &self.host.out[..job.text.len()])?;
        self.call(job, answers.rewrite, Host::rewrite)?;
        for (_, engine) in ENGINES {
            self.fit(job, answers.fit, answers.verdict, engine)?;
        }
        let staged = &answers.staged;
        self.fit(job, fit(staged.verdict as u8, staged.count, 0), staged.verdict, Host::fit_staged)?;
        for (_, assume) in WITH_FACTS {
            self.assume(job, answers, assume)?;
        }
        for (_, engine) in BY_PARTS {
            self.by_parts(job, answers, engine)?;
        }
        for (_, begin, resume) in WITH_SESSION {
            self.fit(job, answers.fit, answers.verdict, begin)?;
            self.fit(job, answers.fit, answers.verdict, |host| resume(host, 0))?;
        }
        self.add(job, answers)
    }

    /// A call of an engine; going on with a session for no further entry answers as the run before.
    fn fit(&mut self, job: &Job, answer: u64, verdict: Verdict, engine: impl Fn(&mut Host) -> u64) -> Result<(), Report> {
        self.host.answer.fill(0xEE);
        self.call(job, answer, engine)?;
        if verdict == Verdict::Fits {
            self.call(job, FITTING, Host::judge)?;
        }
        Ok(())
    }

    fn assume(&mut self, job: &Job, answers: &Answers, engine: impl Fn(&mut Host) -> u64) -> Result<(), Report> {
        self.host.facts.clear();
        self.host.facts.extend_from_slice(&answers.facts);
        self.call(job, answers.assumed, engine)?;
        same("counts with open facts", answers.counts, self.host.counts)
    }

    fn by_parts(&mut self, job: &Job, answers: &Answers, engine: impl Fn(&mut Host) -> u64) -> Result<(), Report> {
        let (verdict, sum) = answers.by_parts;
        self.fit(job, said(verdict as u8), verdict, engine)?;
        same("the sum of the parts' counts", sum, self.host.count)
    }

    /// Offers the rule, and sets it where it can be added: twice it cannot.
    fn add(&mut self, job: &Job, answers: &Answers) -> Result<(), Report> {
        self.call(job, answers.offer, |host| host.offer(&answers.rule))?;
        if answers.offer != 0 {
            return Ok(());
        }
        self.call(job, packed(0, 0), Host::set)?;
        self.call(job, packed(STALE_SLIP, 0), Host::set)?;
        self.call(job, packed(0, answers.longer.len() as u32), Host::write)?;
        same("the longer text", &answers.longer[..], &self.host.out[..answers.longer.len()])
    }

    fn call(&mut self, job: &Job, expected: u64, operation: impl Fn(&mut Host) -> u64) -> Result<(), Report> {
        self.calls += 1;
        same_answer(expected, operation(&mut self.host), || job.text.escape_ascii().to_string())
    }
}
