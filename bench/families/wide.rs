//! Wide choices: each of some items has one of up to seven values, and of two that are near some values do not go together:
//! a denial of four conditions and four variables.

use super::choice::{one_of, pairs, permutation, some};
use crate::puzzles::{denial, fact, X, Y};
use crate::random::Random;
use crate::reference::{Atom, Clause, Ticket};

const CONSTANTS: u8 = 7;

const ITEM: u8 = 0;
const VALUE: u8 = 1;
const FURTHER: u8 = 2;
const NEAR: u8 = 3;
const BAD: u8 = 4;

const V: u8 = 0x82;
const W: u8 = 0x83;

pub fn draw(random: &mut Random, _: usize) -> Ticket {
    let (items, values) = (random.within(5, 7) as u8, random.within(5, 7) as u8);
    let order: Vec<Atom> = permutation(random, values).into_iter().map(|value| Atom::new(VALUE, &[X, value])).collect();
    let mut clauses = one_of(&[Atom::new(ITEM, &[X])], &order, |_| Atom::new(FURTHER, &[X]));
    clauses.push(denial(&[Atom::new(NEAR, &[X, Y]), Atom::new(VALUE, &[X, V]), Atom::new(VALUE, &[Y, W]), Atom::new(BAD, &[V, W])]));
    clauses.extend((0..items).map(|item| fact(Atom::new(ITEM, &[item]))));
    clauses.extend(related(random, NEAR, |random| {
        let many = random.within(10, 21);
        pairs(random, items, many)
    }));
    clauses.extend(related(random, BAD, |random| {
        let (all, many) = ((0..values).flat_map(|x| (0..values).map(move |y| (x, y))).collect(), random.within(16, 30));
        some(random, all, many)
    }));
    Ticket { constants: CONSTANTS, limit: [0; 4], arities: vec![1, 2, 1, 2, 2], clauses }
}

fn related(random: &mut Random, predicate: u8, draw: impl Fn(&mut Random) -> Vec<(u8, u8)>) -> Vec<Clause> {
    draw(random).into_iter().map(|(x, y)| fact(Atom::new(predicate, &[x, y]))).collect()
}
