//! Placements: from six to nine in one place less, none with another; by a rule for each two of them, or by variables.

use super::choice::{one_of, permutation};
use crate::puzzles::{denial, fact, pairs, X, Y, Z};
use crate::random::Random;
use crate::reference::{Atom, Clause, Ticket};

const PLACE: u8 = 0;
/// of those placed further on, by level
const FURTHER: u8 = 1;
const ITEM: u8 = 3;
const LESS: u8 = 4;

pub fn draw(random: &mut Random, _: usize) -> Ticket {
    let many = random.within(6, 9) as u8;
    let order = permutation(random, many - 1);
    let by_variables = random.once_in(2);
    let constants = if by_variables { random.within(many as usize, 14) as u8 } else { many };
    let mut clauses = if by_variables { by_variables_of(many, &order) } else { ground(many, &order) };
    random.shuffle(&mut clauses);
    Ticket { constants, limit: [0; 4], arities: vec![2, 1, 1, 1, 2], clauses }
}

/// One of the places, tried in this order, is the item's where the conditions hold.
fn placed(item: u8, conditions: &[Atom], order: &[u8]) -> Vec<Clause> {
    let places: Vec<Atom> = order.iter().map(|place| Atom::new(PLACE, &[item, *place])).collect();
    one_of(conditions, &places, |level| Atom::new(FURTHER + level, &[item]))
}

/// The first choice is a clause for each item; the further ones are by a variable.
fn ground(many: u8, order: &[u8]) -> Vec<Clause> {
    let mut clauses: Vec<Clause> = placed(X, &[], order).split_off(1);
    for item in 0..many {
        clauses.extend(placed(item, &[], order).into_iter().take(1));
        clauses.extend((0..item).map(|other| denial(&[Atom::new(PLACE, &[item, X]), Atom::new(PLACE, &[other, X])])));
    }
    clauses
}

fn by_variables_of(many: u8, order: &[u8]) -> Vec<Clause> {
    let mut clauses = pairs(LESS, 0, many);
    clauses.extend((0..many).map(|item| fact(Atom::new(ITEM, &[item]))));
    clauses.extend(placed(X, &[Atom::new(ITEM, &[X])], order));
    clauses.push(denial(&[Atom::new(PLACE, &[X, Y]), Atom::new(PLACE, &[Z, Y]), Atom::new(LESS, &[X, Z])]));
    clauses
}
