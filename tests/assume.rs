//! Open facts, by document 02: what is refused, the ticket with facts added, and what the two runs say together. Plain and naive; it shares nothing with
//! the crates.
#![allow(dead_code)] // each program uses its own part

use crate::logic::{ground, Ground};
use crate::reference::{Atom, Clause, Ticket, BAD_COUNT, BAD_FACTS, MOST_CLAUSES};
use crate::walk::{Outcome, Verdict};

pub const MOST_FACTS: usize = 16;

/// What is said, by the library's number.
#[derive(Clone, Copy, Debug, PartialEq, Eq, PartialOrd, Ord)]
pub enum Said {
    Always = 0,
    Never = 1,
    Spent = 2,
    WithSome = 3,
}

/// With the count of each run, 0 for one not made.
#[derive(Clone, Copy, Debug, PartialEq, Eq)]
pub struct Told {
    pub said: Said,
    pub counts: [u32; 2],
    pub second_is_made: bool,
}

/// Why open facts are refused, in the order in which it is looked for.
#[derive(Clone, Copy, Debug, PartialEq, Eq, PartialOrd, Ord)]
pub enum Why {
    TooLong,
    TooMany,
    NoAtom,
    Repeated,
}

pub const WHYS: [Why; 4] = [Why::TooLong, Why::TooMany, Why::NoAtom, Why::Repeated];

impl Why {
    pub fn number(self) -> u8 {
        if self == Why::TooLong { BAD_COUNT } else { BAD_FACTS }
    }
}

/// With a ticket that there is.
pub fn refused(ticket: &Ticket, facts: &[u32]) -> Option<Why> {
    if ticket.clauses.len() + facts.len() > MOST_CLAUSES {
        return Some(Why::TooLong);
    }
    if facts.len() > MOST_FACTS {
        return Some(Why::TooMany);
    }
    if facts.iter().any(|fact| *fact as u64 >= ticket.atoms()) {
        return Some(Why::NoAtom);
    }
    let repeated = (1..facts.len()).any(|i| facts[..i].contains(&facts[i]));
    repeated.then_some(Why::Repeated)
}

/// The ticket with these facts after its clauses, each as a clause without conditions.
pub fn with_facts(ticket: &Ticket, facts: &[u32]) -> Ticket {
    let mut longer = ticket.clone();
    longer.clauses.extend(facts.iter().map(|fact| Clause::new(&[], &[atom(ticket, *fact)])));
    longer
}

/// The ground atom of a number: by predicate, then by arguments with the first one slowest.
pub fn atom(ticket: &Ticket, number: u32) -> Atom {
    let last = |j: &usize| ticket.first_atom(*j) <= number as u64 && (number as u64) < ticket.first_atom(*j + 1);
    let predicate = (0..ticket.arities.len()).find(last).expect("an atom's number");
    let mut within = number as u64 - ticket.first_atom(predicate);
    let mut arguments = vec![0; ticket.arities[predicate] as usize];
    for argument in arguments.iter_mut().rev() {
        *argument = (within % ticket.constants as u64) as u8;
        within /= ticket.constants as u64;
    }
    Atom::new(predicate as u8, &arguments)
}

/// What is said after the run of the ticket by itself, and of the ticket with all facts, which is made unless the first is none.
pub fn told(first: &Outcome, second: impl FnOnce() -> Outcome) -> Told {
    if first.verdict == Verdict::None {
        return Told { said: Said::Always, counts: [first.count, 0], second_is_made: false };
    }
    let second = second();
    let said = match (first.verdict, second.verdict) {
        (Verdict::Spent, _) | (_, Verdict::Spent) => Said::Spent,
        (_, Verdict::None) => Said::WithSome,
        (_, Verdict::Fits) => Said::Never,
    };
    Told { said, counts: [first.count, second.count], second_is_made: true }
}

/// What is right of all choices of the facts to add, by trying each with each set of atoms: no choice, or some, or each has no fitting.
pub fn right(ticket: &Ticket, facts: &[u32]) -> Said {
    let ground: Ground = ground(ticket);
    let fittings: Vec<u32> = (0..1_u32 << ground.atoms).filter(|set| ground.first_violated(&set_of(*set, ground.atoms)).is_none()).collect();
    let has_fitting = |choice: u32| {
        let added: u32 = (0..facts.len()).filter(|i| choice >> i & 1 == 1).map(|i| 1 << facts[i]).sum();
        fittings.iter().any(|set| set & added == added)
    };
    let without = (0..1_u32 << facts.len()).filter(|choice| !has_fitting(*choice)).count();
    match without {
        0 => Said::Never,
        _ if without == 1 << facts.len() => Said::Always,
        _ => Said::WithSome,
    }
}

fn set_of(set: u32, atoms: usize) -> Vec<bool> {
    (0..atoms).map(|atom| set >> atom & 1 == 1).collect()
}
