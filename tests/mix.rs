//! What walks have met: how many tickets ended in which verdict, after how many entries, and what limits around the
//! count gave.
#![allow(dead_code)] // each program uses its own part

use crate::threads::{add_each, row};
use crate::walk::{Outcome, Verdict};

const CLASSES: [&str; 4] = ["0", "1-9", "10-99", "100 on"];

/// The least count of each class.
const LEAST: [u32; 4] = [0, 1, 10, 100];

const VERDICTS: [&str; 3] = ["none", "fits", "spent"];

#[derive(Clone, Default)]
pub struct Mix {
    pub tickets: u64,
    /// none and fits by class of count, with no limit but where a walk is cut
    counts: [[u64; 4]; 2],
    /// walks cut there
    cut: u64,
    /// by verdict, with limits around the count
    limited: [u64; 3],
}

impl Mix {
    /// A ticket's walk with no limit, or cut.
    pub fn ticket(&mut self, outcome: &Outcome) {
        self.tickets += 1;
        match outcome.verdict {
            Verdict::Spent => self.cut += 1,
            verdict => self.counts[verdict as usize][LEAST.iter().rposition(|least| outcome.count >= *least).unwrap()] += 1,
        }
    }

    /// A walk with a limit around the count.
    pub fn limited(&mut self, verdict: Verdict) {
        self.limited[verdict as usize] += 1;
    }

    pub fn add(&mut self, other: &Mix) {
        self.tickets += other.tickets;
        self.cut += other.cut;
        self.counts.iter_mut().zip(&other.counts).for_each(|(to, from)| add_each(to, from));
        add_each(&mut self.limited, &other.limited);
    }

    pub fn print(&self) {
        println!("count      {}", CLASSES.map(|class| format!("{class:>9}")).concat());
        for (verdict, counts) in VERDICTS.iter().zip(&self.counts) {
            println!("{verdict:11}{}", row(counts));
        }
        println!("walks cut: {}; with limits around the count, none, fits, spent:{}", self.cut, row(&self.limited));
    }

    /// None, fits and cut; then both by class of count.
    pub fn short(&self) -> String {
        let verdicts = [self.counts[0].iter().sum(), self.counts[1].iter().sum(), self.cut];
        let classes: Vec<u64> = (0..4).map(|class| self.counts[0][class] + self.counts[1][class]).collect();
        format!("{verdicts:?} {classes:?}")
    }

    /// The verdicts that one ticket in ten does not have, and those that come under a limit less than once in ten tickets.
    pub fn rare_verdicts(&self) -> Vec<String> {
        let whole = self.counts.map(|counts| counts.iter().sum());
        let mut rare: Vec<String> = self.few(&VERDICTS, &whole, 10).collect();
        rare.extend(self.few(&VERDICTS, &self.limited, 10).map(|verdict| format!("{verdict} under a limit")));
        rare
    }

    /// The verdicts with a class of counts that one ticket in `times` does not have.
    pub fn rare_counts(&self, times: u64) -> Vec<String> {
        let mut rare = Vec::new();
        for (verdict, counts) in VERDICTS.iter().zip(&self.counts) {
            rare.extend(self.few(&CLASSES, counts, times).map(|class| format!("{verdict} with a count of {class}")));
        }
        rare
    }

    /// The names of the numbers that are not reached once in `times` tickets.
    fn few<'a>(&'a self, names: &'a [&str], numbers: &'a [u64], times: u64) -> impl Iterator<Item = String> + 'a {
        names.iter().zip(numbers).filter(move |(_, number)| **number < self.tickets.div_ceil(times).max(1)).map(|(name, _)| name.to_string())
    }
}
