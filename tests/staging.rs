//! Tickets fitted by the library's staged engine and by the staged walk, which `stages.rs` has of document 02: on many small random tickets, some of rules that
//! depend on each other, on large ones and on some of any size, with limits around the walk's count, verdict, count and every byte of every buffer must
//! agree; so must refusals. Fits and none are held to all sets of atoms, where these are few, and to the library's other engines, which never say the
//! contrary. Tickets by hand come first, with document 000's examples. Usage: staging [NUMBER OF TICKETS]. The same calls in every run.
mod arbitrary;
mod assume;
mod large;
mod library;
mod logic;
mod magic;
mod mangle;
mod memory;
mod met;
mod mix;
mod mutual;
mod operations;
mod oracle;
mod parts;
mod program;
mod random;
mod reference;
mod refusing;
mod report;
#[allow(dead_code)] // rules are compared by their bytes, and not read back
mod rules;
mod session;
mod sizes;
mod slip;
mod stages;
mod threads;
mod tickets;
mod walk;
mod worked;

use large::FAMILIES;
use logic::ground;
use met::Required;
use operations::{Buffer, Operation};
use parts::has_fitting;
use reference::{Ticket, ANSWER, RULES, WORK};
use refusing::lend;
use report::{same, Report};
use stages::Staged;
use threads::{Run, THREADS};
use walk::{walk, Outcome, Relevancy, Verdict, Whole};

const TICKETS: u64 = 20_000;

/// Of each family of large ones.
const LARGE_TICKETS: u64 = 8;

/// Walks of small tickets are cut after this many entries.
const LONG: u32 = 300;

/// All sets are tried where there are at most this many atoms.
const FEW_ATOMS: u64 = 10;

const STAGED: [Operation; 1] = [Operation::FitStaged];

/// By number.
const ALL: [Verdict; 3] = [Verdict::None, Verdict::Fits, Verdict::Spent];

fn main() {
    threads::run("staging", TICKETS, 1213, run);
}

fn run(run: &mut Run<Met>, tickets: u64) -> Result<(), Report> {
    if run.number == 0 {
        run.by_hand()?;
    }
    for family in &FAMILIES {
        for _ in (run.number..LARGE_TICKETS).step_by(THREADS as usize) {
            let ticket = (family.draw)(&mut run.random);
            run.answered(&ticket, family.cut).map_err(|report| about(report, &ticket))?;
        }
    }
    (0..tickets).try_for_each(|_| run.step())
}

fn about(report: Report, ticket: &Ticket) -> Report {
    format!("{report}\n{}", String::from_utf8_lossy(&reference::print(ticket)))
}

impl Run<Met> {
    /// A small ticket under some limits; then what is refused, or a ticket of any size.
    fn step(&mut self) -> Result<(), Report> {
        let ticket = match self.random.below(6) {
            0 => tickets::crowded(&mut self.random),
            1..=3 => mutual::drawn(&mut self.random, 4),
            _ => tickets::to_walk(&mut self.random),
        };
        same("whether the ticket is accepted", true, reference::read(&reference::print(&ticket)).is_ok()).map_err(|report| about(report, &ticket))?;
        self.answered(&ticket, LONG).map_err(|report| about(report, &ticket))?;
        self.refuse(&STAGED, &ticket)
    }

    /// Calls under limits at which the walk's end turns, none of them past the cut.
    fn answered(&mut self, ticket: &Ticket, cut: u32) -> Result<(), Report> {
        let engine = Staged::new(ticket);
        let whole = Whole::new(&engine, cut, &mut |_, _| {});
        let relevancy = walk(&Relevancy::new(ticket), cut, &mut |_, _| {});
        self.is_right(ticket, &whole.outcome, &relevancy)?;
        self.note(&whole.outcome, &relevancy, engine.most_stages.get());
        let count = whole.outcome.count;
        let mut limits = [0, count.saturating_sub(1), count, count + 1].map(|limit| limit.min(cut)).to_vec();
        limits.dedup();
        for limit in limits {
            let outcome = whole.under(limit);
            self.tally.note(VERDICTS, format!("{:?}", outcome.verdict));
            self.call(&Ticket { limit: limit.to_be_bytes(), ..ticket.clone() }, &outcome)?;
        }
        Ok(())
    }

    /// Fits comes with a fitting, and none only where there is none; the other walk says the same, unless one of the two is cut.
    fn is_right(&mut self, ticket: &Ticket, outcome: &Outcome, relevancy: &Outcome) -> Result<(), Report> {
        if let Some(fitting) = &outcome.fitting {
            same("violated instance of the fitting", None, ground(ticket).first_violated(fitting))?;
        }
        if outcome.verdict == Verdict::Spent {
            return Ok(());
        }
        if relevancy.verdict != Verdict::Spent {
            same("the relevancy walk's verdict", relevancy.verdict, outcome.verdict)?;
        }
        if ticket.atoms() <= FEW_ATOMS {
            self.tally.note(TRIED, format!("{:?}", outcome.verdict));
            same("whether there is a fitting", has_fitting(&ground(ticket)), outcome.verdict == Verdict::Fits)?;
        }
        Ok(())
    }

    fn note(&mut self, outcome: &Outcome, relevancy: &Outcome, stages: usize) {
        let [staged, other] = [outcome, relevancy].map(|outcome| outcome.count + (outcome.verdict == Verdict::Spent) as u32);
        let length = match staged.cmp(&other) {
            std::cmp::Ordering::Less => "shorter",
            std::cmp::Ordering::Equal => "as long",
            std::cmp::Ordering::Greater => "longer",
        };
        self.tally.note(LENGTH, length.to_string());
        self.tally.note(STAGES, stages.to_string());
        if outcome.verdict == Verdict::Fits && relevancy.verdict == Verdict::Fits && outcome.fitting != relevancy.fitting {
            self.tally.note(MET, "another fitting".to_string());
        }
    }

    /// A call, which must give and leave this; the other engines do not say the contrary.
    fn call(&mut self, ticket: &Ticket, outcome: &Outcome) -> Result<(), Report> {
        let table = reference::encode(ticket);
        let lent = lend(&mut self.random, &table);
        let mut left = lent.clone();
        let answer = oracle::staged(outcome, &mut left);
        self.tally.calls += 1;
        lent.agrees(Operation::FitStaged, answer, &left)?;
        if outcome.verdict == Verdict::Fits {
            same("judging of the fitting", library::FITTING, library::judge(left[Buffer::Table].lent(), left[Buffer::Answer].lent()))?;
        }
        for (name, other) in others(&table) {
            if other != Verdict::Spent && outcome.verdict != Verdict::Spent {
                same(&format!("the verdict of {name}"), outcome.verdict, other)?;
            }
            self.tally.note(OTHERS, beside(outcome.verdict, other));
        }
        Ok(())
    }

    /// Document 01's tickets and document 000's examples are printed by the staged walk as by the others, but that of example 7 clause 7 is split first, as
    /// its section 6 says; then tickets told by hand.
    fn by_hand(&mut self) -> Result<(), Report> {
        for worked in worked::worked().into_iter().chain(worked::named_again()) {
            self.prints(worked.name, worked.text.as_bytes(), worked.lines().as_bytes())?;
        }
        for case in worked::case_files() {
            let lines = if case.name == "example_7" { b"810000000002\n" } else { &case.lines[..] };
            self.prints(&case.name, &case.text, lines)?;
        }
        for (what, text, verdict, count, by_relevancy, marks) in BY_HAND {
            let ticket = reference::read(text.as_bytes()).map_err(|refusal| format!("{refusal:?} of {text}"))?;
            let fitting = (verdict == Verdict::Fits).then(|| marks.bytes().map(|mark| mark == b'1').collect());
            let outcome = by_stages(&ticket);
            same(what, (verdict, count, fitting), (outcome.verdict, outcome.count, outcome.fitting.clone()))?;
            same(what, by_relevancy, walk(&Relevancy::new(&ticket), 1000, &mut |_, _| {}).count)?;
            self.call(&ticket, &outcome)?;
            self.answered(&ticket, LONG)?;
        }
        Ok(())
    }

    fn prints(&mut self, name: &str, text: &[u8], lines: &[u8]) -> Result<(), Report> {
        same(name, String::from_utf8_lossy(lines), String::from_utf8_lossy(&program::output(text, by_stages)))?;
        match reference::read(text) {
            Ok(ticket) => self.call(&ticket, &by_stages(&ticket)),
            Err(_) => Ok(()),
        }
    }
}

fn by_stages(ticket: &Ticket) -> Outcome {
    walk(&Staged::new(ticket), u32::from_be_bytes(ticket.limit), &mut |_, _| {})
}

/// The verdicts of the library's other engines.
fn others(table: &[u8]) -> [(&'static str, Verdict); 2] {
    let (mut rules, mut answer, mut work) = (vec![7; RULES], vec![7; ANSWER], vec![7; WORK]);
    let relevancy = library::fit_relevancy(table, &mut answer, &mut work);
    let magic = library::fit_magic(table, &mut rules, &mut answer, &mut work);
    let verdict = |given: u64| ALL[(given >> 8) as u8 as usize];
    [("relevancy", verdict(relevancy)), ("magic", verdict(magic))]
}

fn beside(verdict: Verdict, other: Verdict) -> String {
    format!("{verdict:?} where it is {other:?}")
}

type ByHand = (&'static str, &'static str, Verdict, u32, u32, &'static str);

/// Predicates without arguments, so that an atom has its predicate's number. 0 and 1 are denied, so they are marked at the first stage. Each with verdict
/// and count, the count of the relevancy walk, and the fitting.
const BY_HAND: [ByHand; 8] = [
    // 2 is marked by the step, as it gives 0 or 1; 3, which gives 2 or 0, at the next one: so 2 or 0 is split, and not the clause before, 3 or 0
    (
        "a step looks at the marks before it",
        "0101000400000064\n0200\n0200\n0200\n0200\n0300020300\n030102020001\n030102030200\n0300020200\n03010000\n03010001\nFF06\n",
        Verdict::None,
        4,
        6,
        "",
    ),
    // the same under a limit of as many entries, under which the others are spent; and of one less
    (
        "none where the others are spent",
        "0101000400000004\n0200\n0200\n0200\n0200\n0300020300\n030102020001\n030102030200\n0300020200\n03010000\n03010001\nFF06\n",
        Verdict::None,
        4,
        6,
        "",
    ),
    (
        "spent by its own count",
        "0101000400000003\n0200\n0200\n0200\n0200\n0300020300\n030102020001\n030102030200\n0300020200\n03010000\n03010001\nFF06\n",
        Verdict::Spent,
        3,
        6,
        "",
    ),
    // 2 and 3 give 0 or 1: 3 is not marked where 2 is untrue, so that 3 or 0 is not split
    (
        "a later condition is not marked before the earlier ones are true",
        "0101000400000064\n0200\n0200\n0200\n0200\n03020202030001\n0300020300\n03010000\n03010001\nFF04\n",
        Verdict::Fits,
        0,
        0,
        "0001",
    ),
    // 3 gives 2, which gives 0 or 1: 3 is marked at the stage after the step
    (
        "a stage takes in chains after a step",
        "0101000400000064\n0200\n0200\n0200\n0200\n030102020001\n0301010302\n0300020300\n03010000\n03010001\nFF05\n",
        Verdict::None,
        4,
        4,
        "",
    ),
    // at the root 2 and 3 are marked by the step, and 2 or 0 is split; where 2 is entered, 3 is not marked, so its 3 or 0 is not split
    (
        "marks are made afresh at each node",
        "0101000400000064\n0200\n0200\n0200\n0200\n030102020300\n030102020001\n030102030001\n0300020200\n03010000\n03010001\nFF06\n",
        Verdict::None,
        4,
        6,
        "",
    ),
    // a maker's loop: 2 gives 3 or 4, and each of them 2; that 2 gives 0 or 1 is found first
    (
        "a loop is not gone round",
        "0101000500000064\n0200\n0200\n0200\n0200\n0200\n03000102\n030102020304\n0301010302\n0301010402\n030102020001\n03010000\n03010001\nFF07\n",
        Verdict::None,
        2,
        6,
        "",
    ),
    // 2 gives 0 or 1, so that 2, or again 2, is split at the second stage; 3 or 4 comes before it, at the first, and decides nothing
    (
        "it can be longer",
        "0101000600000064\n0200\n0200\n0200\n0200\n0200\n0200\n0300020202\n030102020001\n0300020304\n0302000305\n0302000405\n03010000\n03010001\nFF07\n",
        Verdict::None,
        8,
        3,
        "",
    ),
];

/// What is met, by kind.
const VERDICTS: &str = "verdicts";
const TRIED: &str = "all sets tried";
const LENGTH: &str = "against the relevancy walk";
const STAGES: &str = "most stages at a place";
const OTHERS: &str = "with another engine's verdict";
const MET: &str = "met";

type Met = met::Met<Staging>;

#[derive(Default)]
struct Staging;

impl Required for Staging {
    fn required() -> Vec<(&'static str, String)> {
        let mut required: Vec<(&str, String)> = ALL.map(|verdict| (VERDICTS, format!("{verdict:?}"))).to_vec();
        required.extend([Verdict::None, Verdict::Fits].map(|verdict| (TRIED, format!("{verdict:?}"))));
        for verdict in [Verdict::None, Verdict::Fits] {
            required.extend([(OTHERS, beside(verdict, Verdict::Spent)), (OTHERS, beside(Verdict::Spent, verdict))]);
        }
        required.extend(["shorter", "as long", "longer"].map(|length| (LENGTH, length.to_string())));
        required.extend((1..=4).map(|stages| (STAGES, stages.to_string())));
        required.push((MET, "another fitting".to_string()));
        required.extend(refusing::required(&STAGED));
        required
    }
}
