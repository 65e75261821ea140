//! Pigeons in holes: one hole less than pigeons, and no two pigeons in one.

use super::{denial, fact, pairs, X, Y, Z};
use crate::reference::{Atom, Clause, Ticket};

const PLACE: u8 = 0;

pub fn place(pigeon: u8, hole: u8) -> Atom {
    Atom::new(PLACE, &[pigeon, hole])
}

/// A rule for each pigeon and for each two of them: a pigeon is in one of the holes 0 to 2 or further on, which is
/// predicate 1, and further on in one of the rest, of which there are at least two.
pub fn rules(pigeons: u8) -> Vec<Clause> {
    let further = |pigeon: u8| Atom::new(1, &[pigeon]);
    let mut clauses: Vec<Clause> = (0..pigeons).map(|p| Clause::new(&[], &[place(p, 0), place(p, 1), place(p, 2), further(p)])).collect();
    clauses.push(Clause::new(&[further(X)], &rest(pigeons)));
    for p in 0..pigeons {
        clauses.extend((0..p).map(|q| denial(&[place(p, X), place(q, X)])));
    }
    clauses
}

/// A pigeon in a hole from 3 on.
fn rest(pigeons: u8) -> Vec<Atom> {
    (3..pigeons - 1).map(|hole| place(X, hole)).collect()
}

pub fn ground(pigeons: u8) -> Ticket {
    Ticket { constants: pigeons, limit: [0xFF; 4], arities: vec![2, 1], clauses: rules(pigeons) }
}

/// The same with one rule for all pigeons, and one denial of three variables. More constants than pigeons are more
/// instances, and the same walk.
pub fn by_variables(pigeons: u8, constants: u8, limit: u32) -> Ticket {
    let (pigeon, further, less) = (1, 2, 3);
    let mut clauses = pairs(less, 0, pigeons);
    clauses.extend((0..pigeons).map(|p| fact(Atom::new(pigeon, &[p]))));
    clauses.push(Clause::new(&[Atom::new(pigeon, &[X])], &[place(X, 0), place(X, 1), place(X, 2), Atom::new(further, &[X])]));
    clauses.push(Clause::new(&[Atom::new(further, &[X])], &rest(pigeons)));
    clauses.push(denial(&[place(X, Y), place(Z, Y), Atom::new(less, &[X, Z])]));
    Ticket { constants, limit: limit.to_be_bytes(), arities: vec![2, 1, 1, 2], clauses }
}

/// Below a path of `side` times `side` entries, one for each pair of lines, of which no choice matters: denials that never come about
/// want both. When the pigeons have found no place, the last choice is another, and they begin again.
pub fn below_a_path(pigeons: u8, side: u8, limit: u32) -> Ticket {
    let (line, choices, never) = (2, [3, 4], Atom::new(5, &[]));
    let pair = |choice: u8| Atom::new(choice, &[X, Y]);
    let mut clauses: Vec<Clause> = (0..side).map(|k| fact(Atom::new(line, &[k]))).collect();
    clauses.push(Clause::new(&[Atom::new(line, &[X]), Atom::new(line, &[Y])], &choices.map(pair)));
    clauses.extend(choices.map(|choice| denial(&[pair(choice), never.clone()])));
    clauses.extend(rules(pigeons));
    Ticket { constants: side.max(pigeons), limit: limit.to_be_bytes(), arities: vec![2, 1, 1, 2, 2, 0], clauses }
}

/// With rules that nobody wants: from each hole that a pigeon is in, it reaches the next ones, round and round, and what
/// it reaches it keeps or loses. More constants are more of these.
pub fn with_unwanted_rules(pigeons: u8, constants: u8) -> Ticket {
    let next = |x: u8, y: u8| Atom::new(2, &[x, y]);
    let reach = |x: u8, y: u8| Atom::new(3, &[x, y]);
    let mut clauses = rules(pigeons);
    clauses.extend((0..constants).map(|x| fact(next(x, (x + 1) % constants))));
    clauses.push(Clause::new(&[place(X, Y), next(Y, Z)], &[reach(X, Z)]));
    clauses.push(Clause::new(&[reach(X, Y), next(Y, Z)], &[reach(X, Z)]));
    clauses.push(Clause::new(&[reach(X, Y)], &[Atom::new(4, &[X]), Atom::new(5, &[Y])]));
    Ticket { constants, limit: [0xFF; 4], arities: vec![2, 1, 2, 2, 1, 1], clauses }
}
