//! Tickets that are known puzzles, for the bench, in families whose members differ in size.
#![allow(dead_code)] // each program uses its own part

mod chain;
pub mod channel;
mod colouring;
pub mod latin;
pub mod pigeons;

use crate::reference::{self, Atom, Clause, Ticket};
use crate::tickets;

/// The first ticket that document 01 works through.
pub const K1: &str = "K1";

pub struct Puzzle {
    pub family: &'static str,
    pub name: String,
    pub ticket: Ticket,
}

/// The members of a family follow one another.
pub fn all() -> Vec<Puzzle> {
    let puzzle = |family, name: &str, ticket| Puzzle { family, name: name.to_string(), ticket };
    vec![
        puzzle("pigeons", "6 pigeons in 5 holes", pigeons::ground(6)),
        puzzle("pigeons", "7 pigeons in 6 holes", pigeons::ground(7)),
        puzzle("pigeons", "8 pigeons in 7 holes", pigeons::ground(8)),
        puzzle("pigeons by three variables", "7 pigeons by three variables, 10 constants", pigeons::by_variables(7, 10, u32::MAX)),
        puzzle("pigeons by three variables", "7 pigeons by three variables, 16 constants", pigeons::by_variables(7, 16, 4000)),
        puzzle("unwanted rules", "6 pigeons and unwanted rules, 8 constants", pigeons::with_unwanted_rules(6, 8)),
        puzzle("unwanted rules", "6 pigeons and unwanted rules, 15 constants", pigeons::with_unwanted_rules(6, 15)),
        puzzle("colouring", "3-colouring on 30 constants", colouring::points(false, u32::MAX)),
        puzzle("colouring", "a graph without a 3-colouring", colouring::points(true, 3000)),
        puzzle("triangles", "two colours and no triangle of one", colouring::no_triangle()),
        puzzle("Latin squares", "a Latin square of order 5", latin::square(5, &[[0, 4, 4]], u32::MAX)),
        puzzle("Latin squares", "a Latin square of order 6", latin::square(6, &[[0, 5, 5]], 5000)),
        puzzle("Horn chains", "a reversed Horn chain of 256 steps", chain::reversed(16)),
        puzzle("Horn chains", "a reversed Horn chain of 1,024 steps", chain::reversed(32)),
        puzzle("deep paths", "a path of 100 entries", tickets::deep(32, 1, 100)),
        puzzle("deep paths", "a path of 1,000 entries", tickets::deep(32, 1, 1000)),
        puzzle("channel routing", "a channel of 6 nets", channel::routing(6, 4)),
        puzzle("channel routing", "a channel of 8 nets", channel::routing(8, 4)),
        puzzle("channel routing", "a channel of 10 nets", channel::routing(10, 4)),
        puzzle("one microsecond", K1, reference::read(include_bytes!("../crates/cases/data/K1.text")).expect("K1 is accepted")),
    ]
}

/// Walks of some 100,000 entries, whose paths stay below 100: short ones, and such as are nearly that long.
pub fn in_slices() -> Vec<Puzzle> {
    let puzzle = |family, name: &str, ticket| Puzzle { family, name: name.to_string(), ticket };
    vec![
        puzzle("pigeons", "8 pigeons in 7 holes", pigeons::ground(8)),
        puzzle("pigeons", "6 pigeons below 81 entries", pigeons::below_a_path(6, 9, 100_000)),
    ]
}

pub const X: u8 = 0x80;
pub const Y: u8 = 0x81;
pub const Z: u8 = 0x82;

pub fn fact(atom: Atom) -> Clause {
    Clause::new(&[], &[atom])
}

pub fn denial(conditions: &[Atom]) -> Clause {
    Clause::new(conditions, &[])
}

/// A fact for each pair of constants from `least` on and below `end`, the smaller one first.
pub fn pairs(predicate: u8, least: u8, end: u8) -> Vec<Clause> {
    (least..end).flat_map(|y| (least..y).map(move |x| fact(Atom::new(predicate, &[x, y])))).collect()
}
