//! How long a ticket of three unrelated families takes by parts and as a whole, by each of the library's engines. The whole walk is the product of theirs,
//! by parts it is the sum.
#[path = "../tests/library.rs"]
mod library;
#[path = "../tests/reference.rs"]
mod reference;
mod timing;
#[path = "../tests/unrelated.rs"]
mod unrelated;

use reference::{Ticket, ANSWER, RULES, WORK};
use timing::{best, time, ROUNDS};

/// Two lines are four choices in each family, so that the whole walk has an end.
const LINES: u8 = 2;

/// What is lent for one ticket, and whether to the magic engine.
struct Lent {
    is_magic: bool,
    table: Vec<u8>,
    rules: Vec<u8>,
    answer: Vec<u8>,
    work: Vec<u8>,
}

impl Lent {
    fn new(ticket: &Ticket, is_magic: bool) -> Lent {
        Lent { is_magic, table: reference::encode(ticket), rules: vec![0; RULES], answer: vec![0; ANSWER], work: vec![0; WORK] }
    }

    /// The entries of the whole walk.
    fn whole(&mut self) -> u64 {
        let Lent { is_magic, table, rules, answer, work } = self;
        let given = if *is_magic { library::fit_magic(table, rules, answer, work) } else { library::fit_relevancy(table, answer, work) };
        fitted(given) >> 32
    }

    /// The sum of the entries by parts.
    fn by_parts(&mut self) -> u64 {
        let Lent { is_magic, table, rules, answer, work } = self;
        let mut sum = 0;
        let given = if *is_magic { library::parts_magic(table, &mut sum, rules, answer, work) } else { library::parts_relevancy(table, &mut sum, answer, work) };
        fitted(given);
        sum
    }

    fn judge(&self) {
        assert_eq!(library::judge(&self.table, &self.answer), library::FITTING, "a fitting is left");
    }
}

/// An answer that says fits.
fn fitted(given: u64) -> u64 {
    assert_eq!(given & 0xFFFF, library::said(1), "it fits");
    given
}

fn main() {
    let (ticket, expected) = unrelated::three(LINES, u32::MAX);
    println!("best of {ROUNDS} rounds; three unrelated families\n");
    println!("{:10} {:>17} {:>15} {:>13} {:>10} {:>17}", "", "entries by parts", "entries, whole", "by parts, us", "whole, us", "whole / by parts");
    for (name, is_magic) in [("relevancy", false), ("magic", true)] {
        let (mut parts, mut all) = (Lent::new(&ticket, is_magic), Lent::new(&ticket, is_magic));
        let (sum, whole) = (parts.by_parts(), all.whole());
        assert_eq!(sum, expected, "{name}: the sum by parts");
        parts.judge();
        all.judge();
        let [by_parts, as_whole] = best([&mut || time(1, sum, || parts.by_parts()), &mut || time(1, whole, || all.whole())]);
        println!("{name:10} {sum:17} {whole:15} {:13.1} {:10.1} {:17.1}", by_parts / 1e3, as_whole / 1e3, as_whole / by_parts);
    }
}
