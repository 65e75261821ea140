//! What reading and writing have met: how often each refusal came, and at how many different lines.

use crate::threads::{add_each, Tally};

pub struct Refusals {
    pub texts: u64,
    pub accepted: u64,
    pub longest: usize,
    pub other_tables: u64,
    refused: [u64; 32],
    lines: [[bool; 128]; 32],
}

/// The refusals that each run must meet.
const ALL: [u8; 12] = [1, 2, 3, 4, 5, 6, 7, 8, 9, 10, 11, 31];

impl Default for Refusals {
    fn default() -> Refusals {
        Refusals { texts: 0, accepted: 0, longest: 0, other_tables: 0, refused: [0; 32], lines: [[false; 128]; 32] }
    }
}

impl Refusals {
    pub fn refusal(&mut self, number: u8, line: u32) {
        self.refused[number as usize] += 1;
        self.lines[number as usize][line as usize] = true;
    }

    pub fn acceptance(&mut self, text: &[u8]) {
        self.accepted += 1;
        self.longest = self.longest.max(text.len());
    }
}

impl Tally for Refusals {
    fn add(&mut self, other: &Refusals) {
        self.texts += other.texts;
        self.accepted += other.accepted;
        self.longest = self.longest.max(other.longest);
        self.other_tables += other.other_tables;
        add_each(&mut self.refused, &other.refused);
        for (lines, others) in self.lines.iter_mut().zip(&other.lines) {
            lines.iter_mut().zip(others).for_each(|(line, other)| *line |= other);
        }
    }

    fn print(&self) {
        println!("refusal    times  lines");
        for number in ALL {
            let lines = self.lines[number as usize][1..].iter().filter(|met| **met).count();
            println!("{number:7} {:8} {:>6}", self.refused[number as usize], if lines == 0 { "-".into() } else { lines.to_string() });
        }
        println!("accepted: {} texts, the longest of {} bytes", self.accepted, self.longest);
        println!("changed tables that are again a ticket's: {}", self.other_tables);
    }

    fn missing(&self) -> Vec<String> {
        ALL.iter().filter(|number| self.refused[**number as usize] == 0).map(|number| format!("refusal {number}")).collect()
    }

    fn agreed(&self) -> String {
        format!("{} texts", self.texts)
    }
}
