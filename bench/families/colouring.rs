//! Random graphs with as many edges as a colouring can just or just not bear; the colours are predicates, or constants.

use super::choice::pairs;
use crate::puzzles::{denial, fact, X, Y, Z};
use crate::random::Random;
use crate::reference::{Atom, Clause, Ticket};

const EDGE: u8 = 0;
const COLOUR: u8 = 1;

/// For a number of colours: how few points and how many, and edges for each 100 points.
const THRESHOLDS: [(u8, usize, usize, usize); 2] = [(3, 14, 24, 235), (4, 10, 13, 440)];

pub fn draw(random: &mut Random, _: usize) -> Ticket {
    let (colours, least, most, edges) = random.pick(&THRESHOLDS);
    let by_predicates = random.once_in(2);
    let points = random.within(least, if by_predicates { most } else { most.min(17) });
    let many = points * edges * random.within(80, 110) / 10_000;
    let edges = pairs(random, points as u8, many).into_iter().map(|(x, y)| fact(Atom::new(EDGE, &[x, y])));
    let (clauses, arities) = if by_predicates { by_predicates_of(colours) } else { by_constants(colours) };
    Ticket { constants: points as u8, limit: [0; 4], arities, clauses: clauses.into_iter().chain(edges).collect() }
}

fn edge() -> Atom {
    Atom::new(EDGE, &[X, Y])
}

/// Both ends of an edge have one of the colours.
fn coloured(colours: u8, colour: impl Fn(u8, u8) -> Atom) -> Vec<Clause> {
    let end = |end: u8| Clause { conditions: vec![edge()], alternatives: (0..colours).map(|k| colour(end, k)).collect() };
    vec![end(X), end(Y)]
}

/// The clauses but for the edges, and the arities.
fn by_predicates_of(colours: u8) -> (Vec<Clause>, Vec<u8>) {
    let colour = |end: u8, k: u8| Atom::new(COLOUR + k, &[end]);
    let mut clauses = coloured(colours, colour);
    clauses.extend((0..colours).map(|k| denial(&[edge(), colour(X, k), colour(Y, k)])));
    (clauses, [&[2][..], &vec![1; colours as usize]].concat())
}

fn by_constants(colours: u8) -> (Vec<Clause>, Vec<u8>) {
    let colour = |end: u8, k: u8| Atom::new(COLOUR, &[end, k]);
    let mut clauses = coloured(colours, colour);
    clauses.push(denial(&[edge(), colour(X, Z), colour(Y, Z)]));
    (clauses, vec![2, 2])
}
