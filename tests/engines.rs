//! The library's two engines and the two walks of document 01, the magic one by the rewritten rules alone: on many small
//! random tickets and on a hundred large ones, with limits around the count, verdict, count, fitting, rules read back and
//! every byte of every buffer must agree; so must refusals. Each ticket is walked twice here, with no limit but a cut, and
//! the two must end alike; each limit is then put to both engines, which must both give what the walks end with, and so agree
//! with each other. That the walks agree under limits too, and place by place, is what `walks` holds.
//! Usage: engines [NUMBER OF SMALL TICKETS]. The same calls in every run.
mod large;
mod lent;
mod library;
mod logic;
mod magic;
mod memory;
mod mix;
mod random;
mod reference;
mod repeats;
mod report;
mod rules;
mod sizes;
mod threads;
mod tickets;
mod walk;
mod worked;

use large::FAMILIES;
use lent::{By, Lent, OF_RULES};
use library::{fit, packed};
use magic::{rewritten, Magic, Rule};
use mix::Mix;
use reference::{Ticket, NO_TABLE, SHORT_BUFFER, WORK};
use repeats::{Followed, Repeats};
use report::{same, Report};
use sizes::{Drawn, Sizes};
use threads::{add_each, row, Run, Tally, THREADS};
use walk::{walk, Outcome, Relevancy, Whole};

const SMALL_TICKETS: u64 = 110_000;

/// Of each family.
const LARGE_TICKETS: u64 = 25;

/// Walks of small tickets are cut after this many entries.
const LONG: u32 = 500;

fn main() {
    threads::run("engines", SMALL_TICKETS, 303, run);
}

fn run(run: &mut Run<Met>, tickets: u64) -> Result<(), Report> {
    for worked in worked::worked().into_iter().chain(worked::named_again()) {
        run.with_own_limit(&reference::read(worked.text.as_bytes()).expect("a worked ticket"))?;
    }
    for ticket in [tickets::deep(31, 2, u32::MAX), tickets::deep(32, 1, 1024)] {
        run.with_own_limit(&ticket)?;
    }
    for family in 0..FAMILIES.len() {
        for _ in (run.number..LARGE_TICKETS).step_by(THREADS as usize) {
            run.large(family)?;
        }
    }
    while run.tally.small.tickets < tickets {
        run.small()?;
    }
    Ok(())
}

impl Run<Met> {
    /// A small ticket, with a limit that is reached and one that is not, or with all four. Sometimes its table damaged,
    /// and any ticket, which may be refused.
    fn small(&mut self) -> Result<(), Report> {
        let ticket = if self.random.once_in(5) { tickets::crowded(&mut self.random) } else { tickets::to_walk(&mut self.random) };
        let mut followed = Followed::new(&ticket);
        let whole = Whole::new(&Relevancy::new(&ticket), LONG, &mut |entered, place| followed.place(entered, place));
        let rules = also_by_rules(&ticket, LONG, &whole.outcome)?;
        self.tally.small.ticket(&whole.outcome);
        self.tally.repeats.ticket(followed, &whole.outcome);
        let [zero, below, count, above] = around(&whole.outcome, LONG);
        let limits = match self.random.below(4) {
            0 => vec![zero, below, count, above],
            _ => vec![self.random.pick(&[zero, below]), self.random.pick(&[count, above])],
        };
        for limit in distinct(limits) {
            let outcome = whole.under(limit);
            self.tally.small.limited(outcome.verdict);
            self.tally.end_higher[outcome.verdict as usize] += whole.ends_higher(limit) as u64;
            self.fitting(&ticket, &rules, limit, &outcome)?;
        }
        match self.random.below(8) {
            0 => self.any(),
            1..=2 => {
                let damaged = tickets::damaged(&mut self.random, &reference::encode(&ticket));
                self.refused(&damaged, reference::ticket_in(&damaged).is_some())
            }
            _ => Ok(()),
        }
    }

    /// A ticket of any size, valid or not, with a limit that is soon reached.
    fn any(&mut self) -> Result<(), Report> {
        let limit = self.random.below(4) as u32;
        let ticket = Ticket { limit: limit.to_be_bytes(), ..tickets::ticket(&mut self.random) };
        let is_table = reference::read(&reference::print(&ticket)).is_ok();
        if is_table {
            self.with_own_limit(&ticket)?;
        }
        self.refused(&reference::encode(&ticket), is_table)
    }

    /// A large ticket, with all four limits.
    fn large(&mut self, family: usize) -> Result<(), Report> {
        let ticket = (FAMILIES[family].draw)(&mut self.random);
        let (whole, sizes) = Sizes::of(&ticket, FAMILIES[family].cut);
        let rules = also_by_rules(&ticket, FAMILIES[family].cut, &whole.outcome)?;
        self.tally.large[family].ticket(&whole.outcome, sizes);
        for limit in distinct(around(&whole.outcome, FAMILIES[family].cut).to_vec()) {
            let outcome = whole.under(limit);
            self.tally.large[family].mix.limited(outcome.verdict);
            self.fitting(&ticket, &rules, limit, &outcome)?;
        }
        Ok(())
    }

    fn with_own_limit(&mut self, ticket: &Ticket) -> Result<(), Report> {
        let limit = u32::from_be_bytes(ticket.limit);
        let outcome = walk(&Relevancy::new(ticket), limit, &mut |_, _| {});
        let rules = also_by_rules(ticket, limit, &outcome)?;
        self.fitting(ticket, &rules, limit, &outcome)
    }

    /// Calls that are not refused, one by each engine, for a ticket of these rules, and what the walks end with under this limit.
    fn fitting(&mut self, ticket: &Ticket, rules: &[Vec<Rule>], limit: u32, outcome: &Outcome) -> Result<(), Report> {
        let ticket = Ticket { limit: limit.to_be_bytes(), ..ticket.clone() };
        let before = Lent::random(&mut self.random, &reference::encode(&ticket));
        let mut after = before.clone();
        after.work = after.work.beginning_with(&[0; WORK]);
        if let Some(fitting) = &outcome.fitting {
            let marks: Vec<u8> = fitting.iter().map(|is_in| *is_in as u8).collect();
            after.answer = after.answer.beginning_with(&marks);
        }
        let answer = fit(outcome.verdict as u8, outcome.count, outcome.deepest);
        self.tally.calls += 2;
        let left = before.call(By::Relevancy, answer)?;
        before.same_left(By::Relevancy, &after, &left)?;
        let left = before.call(By::Magic, answer)?;
        rules::same_rules(rules, &ticket.arities, left.rules.lent()).map_err(|report| format!("{report}: {}", before.about(By::Magic)))?;
        after.rules = after.rules.beginning_with(&rules::laid_out(&ticket, rules));
        before.same_left(By::Magic, &after, &left)
    }

    /// Refusals: a table that no text reads to, and a buffer too short, whatever the table. Where the rules alone are too
    /// short, the relevancy engine is not asked: they are not lent to it.
    fn refused(&mut self, table: &[u8], is_table: bool) -> Result<(), Report> {
        let mut lent = Lent::random(&mut self.random, table);
        if !is_table {
            self.refusal(By::Relevancy, &lent, NO_TABLE)?;
            self.refusal(By::Magic, &lent, NO_TABLE)?;
        }
        let short = lent.shorten(&mut self.random);
        let alone = (0..4).find(|i| (0..4).all(|other| short[other] == (other == *i)));
        if let Some(i) = alone {
            self.tally.alone[i] += 1;
        }
        if alone != Some(OF_RULES) {
            self.refusal(By::Relevancy, &lent, SHORT_BUFFER)?;
        }
        self.refusal(By::Magic, &lent, SHORT_BUFFER)
    }

    fn refusal(&mut self, by: By, lent: &Lent, number: u8) -> Result<(), Report> {
        self.tally.calls += 1;
        self.tally.refused[(number == NO_TABLE) as usize] += 1;
        let left = lent.call(by, packed(number, 0))?;
        lent.same_left(by, lent, &left)
    }
}

/// The rules of a ticket, by which the magic walk must end like the relevancy walk.
fn also_by_rules(ticket: &Ticket, limit: u32, outcome: &Outcome) -> Result<Vec<Vec<Rule>>, Report> {
    let rules = rewritten(ticket);
    let by_rules = walk(&Magic::new(&rules, ticket), limit, &mut |_, _| {});
    let told = |report: Report| format!("{report}\n{}", String::from_utf8_lossy(&reference::print(ticket)));
    same("outcome of the magic walk", outcome, &by_rules).map_err(told)?;
    Ok(rules)
}

/// 0, count - 1, count and count + 1, none of them past a cut.
fn around(whole: &Outcome, cut: u32) -> [u32; 4] {
    let count = whole.count;
    [0, count.saturating_sub(1), count, (count + 1).min(cut)]
}

/// Limits in ascending order, each once.
fn distinct(mut limits: Vec<u32>) -> Vec<u32> {
    limits.dedup();
    limits
}

/// What a run has met; with it refusals 11 and 31, how often each buffer alone was too short, and by verdict how often a small ticket's last entry was on
/// a shorter path than the longest.
#[derive(Default)]
struct Met {
    calls: u64,
    small: Mix,
    repeats: Repeats,
    large: [Drawn; 4],
    refused: [u64; 2],
    alone: [u64; 4],
    end_higher: [u64; 3],
}

impl Tally for Met {
    fn add(&mut self, other: &Met) {
        self.calls += other.calls;
        self.small.add(&other.small);
        self.repeats.add(&other.repeats);
        self.large.iter_mut().zip(&other.large).for_each(|(to, from)| to.add(from));
        add_each(&mut self.refused, &other.refused);
        add_each(&mut self.alone, &other.alone);
        add_each(&mut self.end_higher, &other.end_higher);
    }

    fn print(&self) {
        self.small.print();
        self.repeats.print();
        Drawn::print_heading();
        FAMILIES.iter().zip(&self.large).for_each(|(family, drawn)| drawn.print(family.name));
        println!("small, last entry not on the longest path, none, fits, spent:{}", row(&self.end_higher));
        println!("refusals 11 and 31:{}", row(&self.refused));
        println!("alone too short, table, rules, answer, work:{}", row(&self.alone));
    }

    fn missing(&self) -> Vec<String> {
        let mut large = Mix::default();
        self.large.iter().for_each(|drawn| large.add(&drawn.mix));
        let mut missing = [self.small.rare_verdicts(), self.small.rare_counts(200), self.repeats.rare(200), large.rare_counts(100)].concat();
        for (family, drawn) in FAMILIES.iter().zip(&self.large) {
            missing.extend(drawn.missing(LARGE_TICKETS, family.aim).into_iter().map(|what| format!("{} in {}", what, family.name)));
        }
        missing.extend(["11", "31"].iter().zip(&self.refused).filter(|(_, times)| **times == 0).map(|(number, _)| format!("refusal {number}")));
        let seldom = self.end_higher.iter().any(|times| *times < self.small.tickets.div_ceil(50));
        missing.extend(seldom.then(|| "a last entry that is not on the longest path".to_string()));
        missing.extend(self.alone.contains(&0).then(|| "a buffer that alone is too short".to_string()));
        missing
    }

    fn agreed(&self) -> String {
        let large: u64 = self.large.iter().map(|drawn| drawn.mix.tickets).sum();
        format!("{} small tickets and {large} large ones, {} calls", self.small.tickets, self.calls)
    }
}
