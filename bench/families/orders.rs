//! Acyclic orders of up to nineteen: of some pairs one comes before the other, and of some three one is between the others.

use super::choice::{pairs, permutation};
use crate::puzzles::{denial, fact, X, Y, Z};
use crate::random::Random;
use crate::reference::{Atom, Clause, Ticket};

const PAIR: u8 = 1;

pub fn draw(random: &mut Random, _: usize) -> Ticket {
    let items = random.within(8, 19) as u8;
    let (ordered, triples) = (random.within(items as usize, 32), random.within(4, 14));
    let mut clauses = vec![
        Clause::new(&[Atom::new(PAIR, &[X, Y])], &[before(X, Y), before(Y, X)]),
        Clause::new(&[before(X, Y), before(Y, Z)], &[before(X, Z)]),
        denial(&[before(X, X)]),
    ];
    clauses.extend(pairs(random, items, ordered).into_iter().map(|(x, y)| fact(Atom::new(PAIR, &[x, y]))));
    clauses.extend((0..triples).flat_map(|_| between(&permutation(random, items))));
    Ticket { constants: items, limit: [0; 4], arities: vec![2, 2], clauses }
}

fn before(x: u8, y: u8) -> Atom {
    Atom::new(0, &[x, y])
}

/// The second of these is between the first and the third.
fn between(items: &[u8]) -> [Clause; 2] {
    let (x, y, z) = (items[0], items[1], items[2]);
    [Clause::new(&[before(x, y)], &[before(y, z)]), Clause::new(&[before(y, x)], &[before(z, y)])]
}
