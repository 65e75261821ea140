//! A line on the terminal that says how far a long walk is: entries made, at which rate, and how deep it stands. All of it is told by the sessions
//! that the engines leave after each slice. Where standard error is no terminal nothing is drawn.

use crate::library::Session;
use std::collections::VecDeque;
use std::io::{self, IsTerminal, Write};
use std::time::{Duration, Instant};

const BETWEEN: Duration = Duration::from_millis(250);
/// The rate of now is that of so long.
const RECENT: Duration = Duration::from_secs(3);

/// A line that is drawn over itself, and taken away at the end.
pub struct Line {
    is_shown: bool,
    is_drawn: bool,
    last: Instant,
}

/// How far a walk is, slice by slice.
pub struct Progress {
    line: Line,
    most: u32,
    begun: Made,
    /// what was made at the end of each slice of late, the first one first
    recent: VecDeque<Made>,
}

/// So many entries at a time.
#[derive(Clone, Copy)]
struct Made {
    at: Instant,
    entries: u32,
}

impl Made {
    /// Entries a second from an earlier time on.
    fn rate(&self, since: &Made) -> f64 {
        (self.entries - since.entries) as f64 / (self.at - since.at).as_secs_f64()
    }
}

impl Line {
    pub fn new() -> Line {
        Line { is_shown: io::stderr().is_terminal(), is_drawn: false, last: Instant::now() }
    }

    /// Draws the text, if the last time is long enough ago. A terminal that takes nothing is left alone.
    pub fn draw(&mut self, text: impl FnOnce() -> String) {
        if self.is_shown && self.last.elapsed() >= BETWEEN {
            let _ = write!(io::stderr(), "\r\x1b[K{}", text());
            self.last = Instant::now();
            self.is_drawn = true;
        }
    }
}

impl Drop for Line {
    fn drop(&mut self) {
        if self.is_drawn {
            let _ = write!(io::stderr(), "\r\x1b[K");
        }
    }
}

impl Progress {
    /// Of a walk that has made some entries, and makes at most so many.
    pub fn new(entries: u32, most: u32) -> Progress {
        let begun = Made { at: Instant::now(), entries };
        Progress { line: Line::new(), most, begun, recent: VecDeque::from([begun]) }
    }

    /// Where the walk stands at the end of a slice.
    pub fn draw(&mut self, session: &Session) {
        let now = Made { at: Instant::now(), entries: session.count };
        self.recent.push_back(now);
        while now.at - self.recent[1].at >= RECENT {
            self.recent.pop_front();
        }
        let rates = [self.recent[0], self.begun].map(|since| now.rate(&since));
        self.line.draw(|| words(session, self.most, rates));
    }
}

/// In less than the 80 columns of a small terminal.
fn words(session: &Session, most: u32, rates: [f64; 2]) -> String {
    let [of_late, overall] = rates.map(short);
    format!("{} of at most {most} entries, {of_late}/s, overall {overall}/s, depth {}", session.count, session.length)
}

/// A number in few characters.
fn short(number: f64) -> String {
    match number {
        n if n >= 1e7 => format!("{:.0}M", n / 1e6),
        n if n >= 1e4 => format!("{:.0}k", n / 1e3),
        n if n >= 10.0 => format!("{n:.0}"),
        n => format!("{n:.1}"),
    }
}
