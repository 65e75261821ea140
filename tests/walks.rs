//! The relevancy walk and the magic walk, each written down naively from document 01, on many small random tickets:
//! their trails must agree place by place, and so must verdict, count and fitting, under several limits; the verdict
//! must be right. K1 to K9, tickets that name an alternative again, and the tickets of the program `cases` must be printed
//! as written. The library is not asked. Usage: walks [NUMBER OF TICKETS].
mod logic;
mod magic;
mod mix;
mod program;
mod random;
mod reference;
mod report;
mod threads;
mod tickets;
mod walk;
mod worked;

use logic::Ground;
use magic::{rewritten, Magic};
use mix::Mix;
use reference::Ticket;
use report::{same, Report};
use std::collections::HashSet;
use threads::{add_each, row, Run, Tally};
use walk::{walk, Engine, Outcome, Place, Relevancy, Verdict, Whole};

const TICKETS: u64 = 120_000;

/// Walks are cut here, where no other limit is set.
const LONG: u32 = 200;

/// Whether there is a fitting is found by trying all sets, where there are at most this many atoms.
const FEW_ATOMS: usize = 10;

fn main() {
    threads::run("walks", TICKETS, 201, run);
}

fn worked_tickets() -> Result<(), Report> {
    for worked in worked::worked().into_iter().chain(worked::named_again()) {
        both_print(worked.name, worked.text.as_bytes(), worked.lines().as_bytes())?;
    }
    worked::case_files().iter().try_for_each(|case| both_print(&case.name, &case.text, &case.lines))
}

fn both_print(name: &str, text: &[u8], expected: &[u8]) -> Result<(), Report> {
    let engines: [(&str, fn(&Ticket) -> Outcome); 2] = [("relevancy", by_relevancy), ("magic", by_magic)];
    for (walk, engine) in engines {
        let found = program::output(text, engine);
        if found != expected {
            return Err(format!("{name}: the {walk} walk prints\n{}", String::from_utf8_lossy(&found)));
        }
    }
    Ok(())
}

/// Paths as long as they can be.
fn deep_paths() -> Result<(), Report> {
    for (ticket, verdict, longest) in [(tickets::deep(31, 2, u32::MAX), Verdict::Fits, 961), (tickets::deep(32, 1, 1024), Verdict::None, 1024)] {
        let limit = u32::from_be_bytes(ticket.limit);
        let walked = both(&Relevancy::new(&ticket), &Magic::new(&rewritten(&ticket), &ticket), limit)?;
        same("verdict of a deep ticket", verdict, walked.whole.outcome.verdict)?;
        same("longest path of a deep ticket", longest, walked.longest())?;
    }
    Ok(())
}

fn by_relevancy(ticket: &Ticket) -> Outcome {
    walk(&Relevancy::new(ticket), u32::from_be_bytes(ticket.limit), &mut |_, _| {})
}

fn by_magic(ticket: &Ticket) -> Outcome {
    walk(&Magic::new(&rewritten(ticket), ticket), u32::from_be_bytes(ticket.limit), &mut |_, _| {})
}

fn run(run: &mut Run<Met>, many: u64) -> Result<(), Report> {
    if run.number == 0 {
        worked_tickets()?;
        deep_paths()?;
    }
    while run.tally.mix.tickets < many {
        let ticket = tickets::to_walk(&mut run.random);
        let text = reference::print(&ticket);
        assert!(reference::read(&text).as_ref() == Ok(&ticket), "the ticket is refused");
        let told = |report: Report| format!("{report}\n{}", String::from_utf8_lossy(&text));
        compare(&ticket, &mut run.tally).map_err(told)?;
    }
    Ok(())
}

/// A walk's trail, with the facts at each place, and what it ends with.
struct Walked {
    trail: Vec<(Vec<usize>, Place)>,
    whole: Whole,
}

fn walked(engine: &dyn Engine, limit: u32) -> Walked {
    let mut trail = Vec::new();
    let whole = Whole::new(engine, limit, &mut |entered, place| trail.push((entered.to_vec(), place.clone())));
    Walked { trail, whole }
}

impl Walked {
    /// The longest list of entered atoms on the trail.
    fn longest(&self) -> usize {
        self.trail.iter().map(|(entered, _)| entered.len()).max().unwrap_or(0)
    }
}

/// The two walks of a ticket, without a limit and with limits around the count.
fn compare(ticket: &Ticket, tally: &mut Met) -> Result<(), Report> {
    let (relevancy, magic) = (Relevancy::new(ticket), Magic::new(&rewritten(ticket), ticket));
    let walked = both(&relevancy, &magic, LONG)?;
    let count = walked.whole.outcome.count;
    tally.count(&walked);
    is_right(&logic::ground(ticket), &walked, tally)?;
    for limit in [0, count.saturating_sub(1), count, count + 1] {
        if limit > LONG {
            continue;
        }
        let limited = both(&relevancy, &magic, limit)?;
        same("outcome", &walked.whole.under(limit), &limited.whole.outcome)?;
        same("number of places", count.min(limit) as usize + 1, limited.trail.len())?;
        tally.mix.limited(limited.whole.outcome.verdict);
    }
    Ok(())
}

/// Both walks with this limit. Their trails are one: held wanted is wanted, and held true is true and wanted.
fn both(relevancy: &Relevancy, magic: &Magic, limit: u32) -> Result<Walked, Report> {
    let (one, other) = (walked(relevancy, limit), walked(magic, limit));
    same("number of places of the magic walk", one.trail.len(), other.trail.len())?;
    for ((entered, place), (entered_by_magic, held)) in one.trail.iter().zip(&other.trail) {
        same("list", entered, entered_by_magic)?;
        let at = |what: &str| format!("{what} at {entered:?}");
        let true_and_wanted: Vec<bool> = place.truth.iter().zip(&place.wanted).map(|(truth, wanted)| *truth && *wanted).collect();
        same(&at("held wanted"), &place.wanted, &held.wanted)?;
        same(&at("held true"), &true_and_wanted, &held.truth)?;
        same(&at("found"), &place.found, &held.found)?;
    }
    same("outcome of the magic walk", &one.whole.outcome, &other.whole.outcome)?;
    same("deepest figure", one.longest() as u32, one.whole.outcome.deepest)?;
    Ok(one)
}

/// A path holds no atom twice, and no node enters one twice; fits comes with a fitting, and none only where there is none.
fn is_right(ground: &Ground, walked: &Walked, tally: &mut Met) -> Result<(), Report> {
    for (entered, _) in &walked.trail {
        if (1..entered.len()).any(|i| entered[..i].contains(&entered[i])) {
            return Err(format!("an atom is entered twice on a path: {entered:?}"));
        }
    }
    let lists: HashSet<&[usize]> = walked.trail.iter().map(|(entered, _)| &entered[..]).collect();
    same("number of different lists", walked.trail.len(), lists.len())?;
    match (walked.whole.outcome.verdict, &walked.whole.outcome.fitting) {
        (Verdict::Fits, Some(fitting)) => same("violated instance of the fitting", None, ground.first_violated(fitting)),
        (Verdict::None, None) if ground.atoms <= FEW_ATOMS => {
            tally.all_sets_tried += 1;
            let found = (0..1_u32 << ground.atoms).find(|set| {
                let set: Vec<bool> = (0..ground.atoms).map(|atom| set >> atom & 1 == 1).collect();
                ground.first_violated(&set).is_none()
            });
            same("fitting, by bits, where the verdict is none", None, found)
        }
        (Verdict::None | Verdict::Spent, None) => Ok(()),
        other => Err(format!("no fitting with fits, or one without: {other:?}")),
    }
}

/// What a run has met.
#[derive(Default)]
struct Met {
    mix: Mix,
    /// by length of the longest path: 0, 1, 2, 3, more
    depths: [u64; 5],
    all_sets_tried: u64,
}

impl Met {
    fn count(&mut self, walked: &Walked) {
        self.mix.ticket(&walked.whole.outcome);
        self.depths[walked.longest().min(4)] += 1;
    }
}

impl Tally for Met {
    fn add(&mut self, other: &Met) {
        self.mix.add(&other.mix);
        add_each(&mut self.depths, &other.depths);
        self.all_sets_tried += other.all_sets_tried;
    }

    fn print(&self) {
        self.mix.print();
        println!("longest path       0        1        2        3     more");
        println!("           {}", row(&self.depths));
        println!("none, and all sets tried: {}", self.all_sets_tried);
    }

    fn missing(&self) -> Vec<String> {
        [self.mix.rare_verdicts(), self.mix.rare_counts(2000)].concat()
    }

    fn agreed(&self) -> String {
        format!("{} tickets", self.mix.tickets)
    }
}
