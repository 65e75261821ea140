//! Latin squares with hints, taken from a square, of which one may be wrong.

use super::choice::{permutation, some};
use crate::puzzles::latin::{self, Hint};
use crate::random::Random;
use crate::reference::{Ticket, MOST_CLAUSES};

pub fn draw(random: &mut Random, _: usize) -> Ticket {
    let order = random.within(5, 7) as u8;
    let without = latin::square(order, &[], 0).clauses.len();
    let many = random.within(2, (MOST_CLAUSES - without).min(order as usize * order as usize / 2));
    let square = square(random, order);
    let mut hints = some(random, square, many);
    if random.once_in(3) {
        hints[0][0] = random.below(order as usize) as u8;
    }
    latin::square(order, &hints, 0)
}

/// All cells of a square: the rows, columns and values of a cyclic one in any order.
fn square(random: &mut Random, order: u8) -> Vec<Hint> {
    let [rows, columns, values] = [(); 3].map(|_| permutation(random, order));
    let cell = |row: u8, column: u8| [values[((row + column) % order) as usize], rows[row as usize], columns[column as usize]];
    (0..order).flat_map(|row| (0..order).map(move |column| (row, column))).map(|(row, column)| cell(row, column)).collect()
}
