//! Transitive closure with choices: each point but a few goes to one of some others, none comes back to itself, and some must
//! not be reached from some.

use super::choice::{permutation, some};
use crate::puzzles::{denial, X, Y, Z};
use crate::random::Random;
use crate::reference::{Atom, Clause, Ticket};

pub fn draw(random: &mut Random, _: usize) -> Ticket {
    let points = random.within(8, 19) as u8;
    let ends = random.within(1, 2) as u8;
    let mut clauses = vec![
        Clause::new(&[goes(X, Y)], &[reaches(X, Y)]),
        Clause::new(&[reaches(X, Y), goes(Y, Z)], &[reaches(X, Z)]),
        denial(&[reaches(X, X)]),
    ];
    clauses.extend((ends..points).map(|point| choice(random, point, points)));
    for _ in 0..random.within(points as usize / 2, 2 * points as usize) {
        let pair = permutation(random, points);
        clauses.push(denial(&[reaches(pair[0], pair[1])]));
    }
    Ticket { constants: points, limit: [0; 4], arities: vec![2, 2], clauses }
}

fn goes(x: u8, y: u8) -> Atom {
    Atom::new(0, &[x, y])
}

fn reaches(x: u8, y: u8) -> Atom {
    Atom::new(1, &[x, y])
}

fn choice(random: &mut Random, point: u8, points: u8) -> Clause {
    let many = random.within(2, 4);
    let others = some(random, (0..points).filter(|other| *other != point).collect(), many);
    Clause { conditions: vec![], alternatives: others.into_iter().map(|other| goes(point, other)).collect() }
}
