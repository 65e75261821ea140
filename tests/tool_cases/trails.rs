//! The tool's trails, on many random tickets: each place must be found as the tests' own walk finds it, and most must be confirmed by the
//! library. Trails by stages must end as the staged engine does, and most of their places must be confirmed too. Usage: trails [NUMBER OF TICKETS].
#![allow(dead_code)] // of the tool only what makes a trail is asked for

#[path = "../../tool/check.rs"]
mod check;
#[path = "../../tool/clause.rs"]
mod clause;
#[path = "../../tool/ending.rs"]
mod ending;
#[path = "../../tool/frame.rs"]
mod frame;
#[path = "../../tool/json.rs"]
mod json;
#[path = "../../tool/language.rs"]
mod language;
#[path = "../../tool/library.rs"]
mod library;
#[path = "../logic.rs"]
mod logic;
#[path = "../../tool/parse.rs"]
mod parse;
#[path = "../../tool/progress.rs"]
mod progress;
#[path = "../random.rs"]
mod random;
#[path = "../reference.rs"]
mod reference;
#[path = "../report.rs"]
mod report;
#[path = "../../tool/source.rs"]
mod source;
#[path = "../../tool/spell.rs"]
mod spell;
#[path = "../threads.rs"]
mod threads;
#[path = "../../tool/ticket.rs"]
mod ticket;
#[path = "../tickets.rs"]
mod tickets;
#[path = "../../tool/tree.rs"]
mod tree;
#[path = "../../tool/truth.rs"]
mod truth;
#[path = "../walk.rs"]
mod walk;
#[path = "../../tool/wanted.rs"]
mod wanted;
#[path = "../../tool/words.rs"]
mod words;

use ending::Failure;
use library::Stack;
use report::{same, Report};
use source::{Accepted, Source};
use threads::{add_each, row, Run, Tally};
use tree::Place;
use walk::Relevancy;
use wanted::Way;

const TICKETS: u64 = 20_000;
/// entries, so that no trail is long
const LIMIT: u32 = 40;
/// bytes, for the staged engine
const STACK: usize = 1 << 18;

fn main() {
    threads::run("trails", TICKETS, 21, run);
}

fn run(run: &mut Run<Met>, many: u64) -> Result<(), Report> {
    while run.tally.tickets < many {
        let mut ticket = tickets::to_walk(&mut run.random);
        ticket.limit = LIMIT.to_be_bytes();
        let text = reference::print(&ticket);
        let told = |report: Report| format!("{report}\n{}", String::from_utf8_lossy(&text));
        run.tally.tickets += 1;
        compare(&ticket, &text, &mut run.tally).map_err(told)?;
    }
    Ok(())
}

fn compare(ticket: &reference::Ticket, text: &[u8], tally: &mut Met) -> Result<(), Report> {
    let accepted = Source { file: "ticket".to_string(), text: text.to_vec(), names: None, is_sheet: false, origins: Vec::new() }.accepted().map_err(|failure| failure.message)?;
    let trail = tree::trail(&accepted, Way::AtOnce).map_err(|failure| failure.message)?;
    let mut expected = Vec::new();
    let outcome = walk::walk(&Relevancy::new(ticket), LIMIT, &mut |entered, place| expected.push((entered.to_vec(), place.found.clone())));
    same("verdict", outcome.verdict as u8, trail.verdict as u8)?;
    same("number of places", expected.len(), trail.places.len())?;
    for (i, (entered, found)) in expected.iter().enumerate() {
        let place = &trail.places[i];
        same("entered atoms", entered, &entered_atoms(&accepted, &trail.places, i))?;
        same("depth", entered.len(), place.depth)?;
        same_found(found, &place.found)?;
        if let wanted::Found::Closed(clause, _) = &place.found {
            same("alternatives of what closes", 0, accepted.ticket.clauses[*clause].alternatives.len())?;
        }
        tally.at_once.place(place);
    }
    by_stages(&accepted, tally).map_err(|failure| failure.message)?
}

/// The trail by stages, beside what the engine says.
fn by_stages(accepted: &Accepted, tally: &mut Met) -> Result<Result<(), Report>, Failure> {
    let trail = tree::trail(accepted, Way::InStages)?;
    let fit = library::fit_staged(&mut Stack::painted(STACK), &accepted.table, accepted.ticket.atoms())?;
    let fitting = trail.places.last().and_then(|place| if let wanted::Found::Open(fitting) = &place.found { Some(fitting) } else { None });
    trail.places.iter().for_each(|place| tally.in_stages.place(place));
    tally.late += trail.places.iter().filter(|place| matches!(place.found, wanted::Found::Split(..)) && place.stage > Some(1)).count() as u64;
    let expected = (fit.verdict, fit.count as usize, (fit.verdict == library::Verdict::Fits).then_some(&fit.answer));
    Ok(same("verdict, count and fitting by stages", expected, (trail.verdict, trail.places.len() - 1, fitting)))
}

/// The numbers of the atoms entered, from the root on.
fn entered_atoms(accepted: &Accepted, places: &[Place], i: usize) -> Vec<usize> {
    let entries = std::iter::successors(places[i].entry.as_ref(), |(parent, _)| places[*parent].entry.as_ref());
    let mut numbers: Vec<usize> = entries.map(|(_, atom)| accepted.ticket.number(atom)).collect();
    numbers.reverse();
    numbers
}

fn same_found(expected: &walk::Found, found: &wanted::Found) -> Result<(), Report> {
    let split = |clause: &usize, values: &Vec<u8>| format!("split by {clause} with {values:?}");
    let expected = match expected {
        walk::Found::Closed => "closed".to_string(),
        walk::Found::Open => "open".to_string(),
        walk::Found::Split { clause, values, .. } => split(clause, values),
    };
    let found = match found {
        wanted::Found::Closed(..) => "closed".to_string(),
        wanted::Found::Open(_) => "open".to_string(),
        wanted::Found::Split(clause, values) => split(clause, values),
    };
    same("found", expected, found)
}

#[derive(Default)]
struct Met {
    tickets: u64,
    at_once: Places,
    in_stages: Places,
    /// splits in a second stage, or a later one
    late: u64,
}

/// How often a place was closed, open and split, and how many of the open and split ones were not confirmed.
#[derive(Default)]
struct Places {
    found: [u64; 3],
    unconfirmed: u64,
}

impl Places {
    fn add(&mut self, other: &Places) {
        add_each(&mut self.found, &other.found);
        self.unconfirmed += other.unconfirmed;
    }

    fn place(&mut self, place: &Place) {
        let kind = match place.found {
            wanted::Found::Closed(..) => 0,
            wanted::Found::Open(_) => 1,
            wanted::Found::Split(..) => 2,
        };
        self.found[kind] += 1;
        self.unconfirmed += !place.confirmed as u64;
    }

    /// Of twenty places at most one is without the library's word: in these tickets many a splitting clause has four conditions.
    fn missing(&self) -> Vec<String> {
        let kinds = ["closed", "open", "split"].iter().zip(self.found).filter(|(_, times)| *times == 0).map(|(kind, _)| kind.to_string());
        let seldom = (20 * self.unconfirmed > self.found.iter().sum()).then(|| "confirmed places".to_string());
        kinds.chain(seldom).collect()
    }
}

impl Tally for Met {
    fn add(&mut self, other: &Met) {
        self.tickets += other.tickets;
        self.at_once.add(&other.at_once);
        self.in_stages.add(&other.in_stages);
        self.late += other.late;
    }

    fn print(&self) {
        println!("places      closed     open    split  not confirmed");
        println!("         {}{:15}", row(&self.at_once.found), self.at_once.unconfirmed);
        println!("by stages{}{:15}\nsplits after the first stage: {}", row(&self.in_stages.found), self.in_stages.unconfirmed, self.late);
    }

    fn missing(&self) -> Vec<String> {
        let late = (self.late == 0).then(|| "splits after the first stage".to_string());
        [self.at_once.missing(), self.in_stages.missing(), late.into_iter().collect()].concat()
    }

    fn agreed(&self) -> String {
        format!("{} tickets", self.tickets)
    }
}
