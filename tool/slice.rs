//! How many entries a slice of a walk has. After each slice the tool looks whether Ctrl-C was typed, and draws how far it is.

use std::time::Duration;

/// How long a slice is to take.
const USUAL: Duration = Duration::from_millis(80);
/// How long it may take where the path is deep.
const LONGEST: Duration = Duration::from_millis(1000);
const FIRST: u32 = 64;

pub struct Slice {
    pub entries: u32,
}

impl Slice {
    pub fn first() -> Slice {
        Slice { entries: FIRST }
    }

    /// Sets the next slice by the time that the last one took, with so many entries made and so many of the path walked again before them. As that
    /// is done in each slice, one on a deep path has eight times as many entries, if they do not take too long.
    pub fn set(&mut self, made: u32, path: u16, took: Duration) {
        let each = took.as_secs_f64() / (made as f64 + path as f64);
        let within = |time: Duration| time.as_secs_f64() / each;
        let wanted = within(USUAL).max(within(LONGEST).min(8.0 * path as f64));
        self.entries = wanted.clamp(1.0, 8.0 * self.entries as f64) as u32;
    }
}
