//! Placements with drawn rules that nobody wants: where an item is leads on and on, and what it leads to splits.

use super::choice::permutation;
use crate::puzzles::{fact, pigeons, X, Y, Z};
use crate::random::Random;
use crate::reference::{Atom, Clause, Ticket};

const NEXT: u8 = 2;
/// of two arguments, and of one
const PAIRS: [u8; 2] = [3, 4];
const ONES: [u8; 2] = [5, 6];

pub fn draw(random: &mut Random, _: usize) -> Ticket {
    let constants = random.within(8, 14) as u8;
    let mut clauses = pigeons::rules(random.within(6, 7) as u8);
    let next = permutation(random, constants);
    clauses.extend((0..constants).map(|x| fact(Atom::new(NEXT, &[x, next[x as usize]]))));
    clauses.extend((0..random.within(2, 6)).map(|_| rule(random)));
    Ticket { constants, limit: [0; 4], arities: vec![2, 1, 2, 2, 2, 1, 1], clauses }
}

/// From a place, or from what is led to already, one step on: to a pair, or to one of two things.
fn rule(random: &mut Random) -> Clause {
    let from = if random.once_in(2) { pigeons::place(X, Y) } else { Atom::new(random.pick(&PAIRS), &[X, Y]) };
    match random.below(3) {
        0 => Clause::new(&[from], &ONES.map(|one| Atom::new(one, &[random.pick(&[X, Y])]))),
        _ => Clause::new(&[from, Atom::new(NEXT, &[Y, Z])], &[Atom::new(random.pick(&PAIRS), &[X, Z])]),
    }
}
