//! Colours for the points of a graph, or for its edges.

use super::{denial, fact, pairs, X, Y, Z};
use crate::reference::{Atom, Clause, Ticket};

/// A ring of 30 with 24 chords; both ends of an edge have one of three colours, and not the same. With three edges more,
/// among the last four, each two of which then have one, there is no colouring.
pub fn points(has_none: bool, limit: u32) -> Ticket {
    let edge = |x: u8, y: u8| Atom::new(3, &[x, y]);
    let mut clauses = vec![];
    for end in [X, Y] {
        clauses.push(Clause::new(&[edge(X, Y)], &[0, 1, 2].map(|colour| Atom::new(colour, &[end]))));
    }
    clauses.extend((0..3).map(|colour| denial(&[edge(X, Y), Atom::new(colour, &[X]), Atom::new(colour, &[Y])])));
    clauses.extend((0..30).map(|k| fact(edge(k, (k + 1) % 30))));
    clauses.extend((0..24).map(|k| fact(edge(k, (k + 11) % 30))));
    let more = if has_none { vec![(26, 28), (26, 29), (27, 29)] } else { vec![] };
    clauses.extend(more.into_iter().map(|(x, y)| fact(edge(x, y))));
    Ticket { constants: 30, limit: limit.to_be_bytes(), arities: vec![1, 1, 1, 2], clauses }
}

/// Each pair of the last 6 of 13 constants has one of two colours, and no three have one colour among them: there is no
/// way.
pub fn no_triangle() -> Ticket {
    let pair = |colour: u8, x: u8, y: u8| Atom::new(colour, &[x, y]);
    let mut clauses = pairs(2, 7, 13);
    clauses.push(Clause::new(&[pair(2, X, Y)], &[pair(0, X, Y), pair(1, X, Y)]));
    clauses.extend([0, 1].map(|colour| denial(&[pair(colour, X, Y), pair(colour, Y, Z), pair(colour, X, Z)])));
    Ticket { constants: 13, limit: [0xFF; 4], arities: vec![2, 2, 2], clauses }
}
