//! What families draw from.

use crate::random::Random;
use crate::reference::{Atom, Clause};

/// Where the conditions hold, one of these atoms does. A clause has room for four alternatives: where there are more, the fourth
/// stands for the others, a level further on.
pub fn one_of(conditions: &[Atom], atoms: &[Atom], further: impl Fn(u8) -> Atom) -> Vec<Clause> {
    let (mut clauses, mut conditions, mut left) = (Vec::new(), conditions.to_vec(), atoms);
    for level in 0.. {
        if left.len() <= 4 {
            break;
        }
        let others = further(level);
        clauses.push(Clause::new(&conditions, &[&left[..3], &[others.clone()]].concat()));
        (conditions, left) = (vec![others], &left[3..]);
    }
    clauses.push(Clause::new(&conditions, left));
    clauses
}

/// So many different pairs of numbers below `end`, in any order, the smaller number of each first; all, where there are fewer.
pub fn pairs(random: &mut Random, end: u8, many: usize) -> Vec<(u8, u8)> {
    let all = (0..end).flat_map(|y| (0..y).map(move |x| (x, y))).collect();
    some(random, all, many)
}

/// So many of these, in any order; all, where there are fewer.
pub fn some<T>(random: &mut Random, mut all: Vec<T>, many: usize) -> Vec<T> {
    random.shuffle(&mut all);
    all.truncate(many);
    all
}

/// The numbers below `end` in any order.
pub fn permutation(random: &mut Random, end: u8) -> Vec<u8> {
    some(random, (0..end).collect(), end as usize)
}
