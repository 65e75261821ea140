//! Horn chains.

use super::{denial, fact, X};
use crate::reference::{Atom, Clause, Ticket};

/// From the last atom of a square down to atom 0, one by one, against the order of the clauses; then a denial.
pub fn reversed(side: u8) -> Ticket {
    let at = |x: u8, y: u8| Atom::new(0, &[x, y]);
    let last = side - 1;
    let mut clauses = vec![denial(&[at(0, 0)])];
    clauses.extend((1..side).map(|k| Clause::new(&[at(k, 0)], &[at(k - 1, last)])));
    clauses.extend((1..side).map(|k| Clause::new(&[at(X, k)], &[at(X, k - 1)])));
    clauses.push(fact(at(last, last)));
    Ticket { constants: side, limit: [0xFF; 4], arities: vec![2], clauses }
}
