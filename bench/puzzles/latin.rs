//! Latin squares.

use super::{denial, fact, pairs, X, Y, Z};
use crate::reference::{Atom, Clause, Ticket};

/// A value, its row and its column.
pub type Hint = [u8; 3];

/// Of an order from 5 to 7, with some cells given. A cell has one of the values 0 to 2 or a further one, which is one
/// of the rest; no value comes twice in a row or in a column. The first predicates are the values, by row and column.
pub fn square(order: u8, hints: &[Hint], limit: u32) -> Ticket {
    let (further, less, line) = (order, order + 1, order + 2);
    let value = |value: u8, row: u8, column: u8| Atom::new(value, &[row, column]);
    let mut clauses = pairs(less, 0, order);
    clauses.extend((0..order).map(|k| fact(Atom::new(line, &[k]))));
    let further = Atom::new(further, &[X, Y]);
    let cell = [Atom::new(line, &[X]), Atom::new(line, &[Y])];
    clauses.push(Clause::new(&cell, &[value(0, X, Y), value(1, X, Y), value(2, X, Y), further.clone()]));
    clauses.push(Clause { conditions: vec![further], alternatives: (3..order).map(|k| value(k, X, Y)).collect() });
    for k in 0..order {
        clauses.push(denial(&[value(k, X, Y), value(k, X, Z), Atom::new(less, &[Y, Z])]));
        clauses.push(denial(&[value(k, X, Y), value(k, Z, Y), Atom::new(less, &[X, Z])]));
    }
    clauses.extend(hints.iter().map(|[given, row, column]| fact(value(*given, *row, *column))));
    let mut arities = vec![2; order as usize + 2];
    arities.push(1);
    Ticket { constants: order, limit: limit.to_be_bytes(), arities, clauses }
}
