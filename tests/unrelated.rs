//! Tickets of unrelated families: rules that share no predicate. The walk of the whole is the product of theirs, by parts it is the sum.
#![allow(dead_code)] // each program uses its own part

use crate::reference::{Atom, Clause, Ticket};

const X: u8 = 0x80;
const Y: u8 = 0x81;

/// How many predicates a family has: lines, what is chosen for two of them, left or right, what never holds, and a last choice, up or down.
pub const PREDICATES: u8 = 6;
const ARITIES: [u8; PREDICATES as usize] = [1, 2, 2, 0, 0, 0];

/// A family by its first predicate and the number of its lines.
#[derive(Clone, Copy)]
pub struct Family {
    pub first: u8,
    pub lines: u8,
}

impl Family {
    fn atom(self, predicate: u8, arguments: &[u8]) -> Atom {
        Atom::new(self.first + predicate, arguments)
    }

    /// For each two lines left or right, whichever: denials that never come about want both.
    fn choices(self) -> Vec<Clause> {
        let (never, line) = (self.atom(3, &[]), |line: u8| self.atom(0, &[line]));
        let sides = [self.atom(1, &[X, Y]), self.atom(2, &[X, Y])];
        let mut clauses: Vec<Clause> = (0..self.lines).map(|k| Clause::new(&[], &[line(k)])).collect();
        clauses.push(Clause::new(&[line(X), line(Y)], &sides));
        clauses.extend(sides.map(|side| Clause::new(&[side, never.clone()], &[])));
        clauses
    }

    /// Up or down, of which neither goes with these atoms.
    fn last(self, with: &[Atom]) -> Vec<Clause> {
        let ends = [self.atom(4, &[]), self.atom(5, &[])];
        let denials = ends.clone().map(|end| Clause::new(&[with, &[end]].concat(), &[]));
        [vec![Clause::new(&[self.atom(0, &[0])], &ends)], denials.to_vec()].concat()
    }

    /// It has no fitting, which is found out after all choices have been made in all ways.
    pub fn without_fitting(self) -> Vec<Clause> {
        [self.choices(), self.last(&[])].concat()
    }

    /// The first choice, left for the first line with itself, is the wrong one, which is found out after all others have been made in all ways.
    fn wrong_at_first(self) -> [Vec<Clause>; 2] {
        [self.choices(), self.last(&[self.atom(1, &[0, 0])])]
    }

    /// How many entries lead to the fitting where the first choice is wrong: it, the other choices in all ways, below each of them both ends; then the
    /// right one, and the others once.
    fn entries(self) -> u64 {
        let choices = self.lines as u64 * self.lines as u64;
        2 * (1 << choices) + choices - 1
    }
}

/// These clauses, of families that begin at this predicate.
pub fn ticket(lines: u8, before: u8, families: u8, clauses: Vec<Clause>, limit: u32) -> Ticket {
    let arities = [vec![0; before as usize], ARITIES.repeat(families as usize)].concat();
    Ticket { constants: lines, limit: limit.to_be_bytes(), arities, clauses }
}

/// Three families whose first choice is wrong, each found out after the choices of all; and how many entries they take by parts.
pub fn three(lines: u8, limit: u32) -> (Ticket, u64) {
    let families = [0, 1, 2].map(|i| Family { first: i * PREDICATES, lines });
    let [choices, last] = [0, 1].map(|i| families.map(|family| family.wrong_at_first()[i].clone()).concat());
    (ticket(lines, 0, 3, [choices, last].concat(), limit), families.map(Family::entries).iter().sum())
}
