//! Alternatives that a split names again: of which kinds a walk has passed over one.

use crate::reference::Ticket;
use crate::threads::{add_each, row};
use crate::walk::{Found, Outcome, Place, Verdict};

const KINDS: [&str; 5] =
    ["in the clause", "in the instance alone", "four times the same", "first and third, not the second", "later ones, not the first"];

/// How many tickets were walked, and in how many a split of each kind was closed, so that a repeat in it was passed over and not just left.
#[derive(Default)]
pub struct Repeats {
    tickets: u64,
    passed: [u64; 5],
}

/// A ticket's walk, followed from place to place: the kinds of each split on the path, and those of the splits that are closed.
pub struct Followed<'a> {
    ticket: &'a Ticket,
    path: Vec<[bool; 5]>,
    passed: [bool; 5],
}

impl Followed<'_> {
    pub fn new(ticket: &Ticket) -> Followed<'_> {
        Followed { ticket, path: Vec::new(), passed: [false; 5] }
    }

    /// A place under this list of entered atoms. Splits that have as many entered atoms or more are closed by then.
    pub fn place(&mut self, entered: &[usize], place: &Place) {
        self.close(entered.len());
        if let Found::Split { clause, alternatives, .. } = &place.found {
            self.path.push(kinds(self.ticket, *clause, alternatives));
        }
    }

    fn close(&mut self, left: usize) {
        for closed in self.path.drain(left..) {
            self.passed.iter_mut().zip(closed).for_each(|(passed, kind)| *passed |= kind);
        }
    }
}

/// The kinds of repeats in a split.
fn kinds(ticket: &Ticket, clause: usize, alternatives: &[usize]) -> [bool; 5] {
    let written = &ticket.clauses[clause].alternatives;
    let in_clause = (1..written.len()).any(|i| written[..i].contains(&written[i]));
    let in_instance = (1..alternatives.len()).any(|i| alternatives[..i].contains(&alternatives[i]));
    let (first, rest) = (alternatives[0], &alternatives[1..]);
    [
        in_clause,
        in_instance && !in_clause,
        rest.len() == 3 && rest.iter().all(|atom| *atom == first),
        rest.len() >= 2 && rest[1] == first && rest[0] != first,
        in_instance && !rest.contains(&first),
    ]
}

impl Repeats {
    /// A walk at its end.
    pub fn ticket(&mut self, mut followed: Followed, outcome: &Outcome) {
        if outcome.verdict == Verdict::None {
            followed.close(0);
        }
        self.tickets += 1;
        self.passed.iter_mut().zip(followed.passed).for_each(|(tickets, passed)| *tickets += passed as u64);
    }

    pub fn add(&mut self, other: &Repeats) {
        self.tickets += other.tickets;
        add_each(&mut self.passed, &other.passed);
    }

    pub fn print(&self) {
        println!("tickets with an alternative passed over, which is named again {}:\n           {}", KINDS.join("; "), row(&self.passed));
    }

    /// The kinds that one ticket in `times` does not have.
    pub fn rare(&self, times: u64) -> Vec<String> {
        let rare = KINDS.iter().zip(&self.passed).filter(|(_, passed)| **passed < self.tickets.div_ceil(times).max(1));
        rare.map(|(kind, _)| format!("an alternative named again {kind}")).collect()
    }
}
