//! What the library's engines are lent, and a call by one of them.

use crate::library;
use crate::memory::{less_than, same_bytes, Memory};
use crate::random::Random;
use crate::reference::{ANSWER, RULES, TABLE, WORK};
use crate::report::{dump, same_answer, Report};

#[derive(Clone, Copy, Debug, PartialEq, Eq)]
pub enum By {
    Relevancy,
    Magic,
}

/// The rules are lent to the magic engine alone.
#[derive(Clone)]
pub struct Lent {
    pub table: Memory,
    pub rules: Memory,
    pub answer: Memory,
    pub work: Memory,
}

const NAMES: [&str; 4] = ["table", "rules", "answer", "work"];

/// Where the rules stand among the four.
pub const OF_RULES: usize = 1;

impl Lent {
    /// Buffers that are long enough, or longer, with any bytes in them but for the table.
    pub fn random(random: &mut Random, table: &[u8]) -> Lent {
        let mut buffer = |required: usize| {
            let len = required + random.pick(&[0, 0, 1, 2, 57]);
            Memory::random(random, len)
        };
        Lent { table: buffer(TABLE).beginning_with(table), rules: buffer(RULES), answer: buffer(ANSWER), work: buffer(WORK) }
    }

    /// Makes a buffer too short, or several: whether each is.
    pub fn shorten(&mut self, random: &mut Random) -> [bool; 4] {
        let buffers = [(&mut self.table, TABLE), (&mut self.rules, RULES), (&mut self.answer, ANSWER), (&mut self.work, WORK)];
        let sure = random.below(buffers.len());
        let mut short = [false; 4];
        for (i, (buffer, required)) in buffers.into_iter().enumerate() {
            short[i] = i == sure || random.once_in(4);
            if short[i] {
                *buffer = buffer.truncated(less_than(random, required));
            }
        }
        short
    }

    fn buffers(&self) -> [&Memory; 4] {
        [&self.table, &self.rules, &self.answer, &self.work]
    }

    /// What an engine leaves, whose answer must be this one.
    pub fn call(&self, by: By, answer: u64) -> Result<Lent, Report> {
        let mut left = self.clone();
        let (table, rules) = (left.table.lent(), left.rules.lent_mut());
        let (marks, work) = (left.answer.lent_mut(), left.work.lent_mut());
        let found = match by {
            By::Relevancy => library::fit_relevancy(table, marks, work),
            By::Magic => library::fit_magic(table, rules, marks, work),
        };
        same_answer(answer, found, || self.about(by))?;
        Ok(left)
    }

    /// That each byte is as expected in what an engine has left of these.
    pub fn same_left(&self, by: By, expected: &Lent, left: &Lent) -> Result<(), Report> {
        for (name, (expected, left)) in NAMES.iter().zip(expected.buffers().into_iter().zip(left.buffers())) {
            same_bytes(name, expected, left, || self.about(by))?;
        }
        Ok(())
    }

    pub fn about(&self, by: By) -> String {
        let lens = self.buffers().map(|memory| memory.lent().len());
        format!("by {by:?}, {NAMES:?} of {lens:?} bytes\n{}", dump(self.table.lent()))
    }
}
