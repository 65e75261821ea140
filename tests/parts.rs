//! The parts of a ticket, by document 02: which clauses belong together, what each part is run as, and what the runs say together. Plain and naive; it
//! shares nothing with the crates.
#![allow(dead_code)] // each program uses its own part

use crate::logic::{Atoms, Ground};
use crate::reference::{Clause, Ticket};
use crate::walk::{until_nothing_is_new, Outcome, Verdict};

/// The predicates that it has, none for a clause without atoms; and the ticket with its clauses alone.
#[derive(Clone, Debug)]
pub struct Part {
    pub predicates: Vec<u8>,
    pub ticket: Ticket,
}

/// What the runs that were made say together, and how many they were.
#[derive(Clone, Debug, PartialEq, Eq)]
pub struct Told {
    pub verdict: Verdict,
    pub count: u64,
    /// with fits
    pub fitting: Option<Atoms>,
    pub runs: usize,
}

/// The parts in the order in which they are run: clauses without atoms, each by itself, and then by the lowest predicate.
pub fn parts(ticket: &Ticket) -> Vec<Part> {
    let bare: Vec<&Clause> = ticket.clauses.iter().filter(|clause| predicates_of(clause).is_empty()).collect();
    let mut parts: Vec<Part> = bare.into_iter().map(|clause| Part { predicates: Vec::new(), ticket: with(ticket, vec![clause.clone()]) }).collect();
    for lowest in 0..ticket.arities.len() as u8 {
        let predicates = together(ticket, lowest);
        if predicates[0] == lowest {
            let own = |clause: &&Clause| predicates_of(clause).iter().any(|predicate| predicates.contains(predicate));
            let clauses = ticket.clauses.iter().filter(own).cloned().collect();
            parts.push(Part { predicates, ticket: with(ticket, clauses) });
        }
    }
    parts
}

/// The ticket with these clauses: constants, predicates and limit are as they were.
fn with(ticket: &Ticket, clauses: Vec<Clause>) -> Ticket {
    Ticket { clauses, ..ticket.clone() }
}

/// The predicates that share a clause with this one, directly or through others, and itself; in order.
fn together(ticket: &Ticket, predicate: u8) -> Vec<u8> {
    let mut found = vec![predicate];
    until_nothing_is_new(|| {
        let before = found.len();
        for own in ticket.clauses.iter().map(predicates_of) {
            if own.iter().any(|predicate| found.contains(predicate)) {
                let new: Vec<u8> = own.into_iter().filter(|predicate| !found.contains(predicate)).collect();
                found.extend(new);
            }
        }
        found.len() > before
    });
    found.sort_unstable();
    found.dedup();
    found
}

pub fn predicates_of(clause: &Clause) -> Vec<u8> {
    clause.conditions.iter().chain(&clause.alternatives).map(|atom| atom.predicate).collect()
}

/// What is said of a ticket of these parts, each of which is run so, up to the first that is none.
pub fn told(ticket: &Ticket, parts: &[Part], mut run: impl FnMut(usize, &Part) -> Outcome) -> Told {
    let (mut outcomes, mut count): (Vec<Outcome>, u64) = (Vec::new(), 0);
    for (i, part) in parts.iter().enumerate() {
        let outcome = run(i, part);
        count += outcome.count as u64;
        outcomes.push(outcome);
        if outcomes[i].verdict == Verdict::None {
            return Told { verdict: Verdict::None, count, fitting: None, runs: i + 1 };
        }
    }
    let runs = parts.len();
    if outcomes.iter().any(|outcome| outcome.verdict == Verdict::Spent) {
        return Told { verdict: Verdict::Spent, count, fitting: None, runs };
    }
    Told { verdict: Verdict::Fits, count, fitting: Some(joined(ticket, parts, &outcomes)), runs }
}

/// Of each atom what the fitting says of the part that has its predicate.
fn joined(ticket: &Ticket, parts: &[Part], outcomes: &[Outcome]) -> Atoms {
    let mut all = Vec::new();
    for predicate in 0..ticket.arities.len() {
        let own = parts.iter().position(|part| part.predicates.contains(&(predicate as u8))).expect("each predicate is in a part");
        let fitting = outcomes[own].fitting.as_ref().expect("each part fits");
        all.extend(&fitting[ticket.first_atom(predicate) as usize..ticket.first_atom(predicate + 1) as usize]);
    }
    all
}

/// Whether a set of atoms is a fitting, by trying all sets.
pub fn has_fitting(ground: &Ground) -> bool {
    (0..1_u32 << ground.atoms).any(|set| ground.first_violated(&(0..ground.atoms).map(|atom| set >> atom & 1 == 1).collect::<Atoms>()).is_none())
}
