//! A puzzle, and how long each engine takes to fit it. All end with the same verdict, count and fitting.
#![allow(dead_code)] // each program uses its own part

use crate::engines::{Engine, Lent};
use crate::grounded;
use crate::means::Ratios;
use crate::puzzles::Puzzle;
use crate::reference::{self, Ticket};
use crate::summary::Row;
use crate::timing::checked;
use crate::walk::Outcome;

/// How often each engine has a turn with a puzzle, and for how many nanoseconds at least. Of all calls the quickest count.
const ROUNDS: usize = 4;
const TURN: f64 = 2e7;

/// Calls are timed so many together that they take this long, so that a clock that is coarse or slow does not matter.
const TOGETHER: f64 = 1e5;
const MOST_TOGETHER: u32 = 1 << 16;

/// A puzzle with more instances and more entries than this is large.
pub const MANY: u64 = 1000;

pub struct Measured {
    pub family: &'static str,
    pub name: String,
    pub instances: u64,
    pub outcome: Outcome,
    /// of a call of each engine that was measured, at the quickest, in the order of `Engine::ALL`
    nanoseconds: [f64; 5],
}

/// Each round goes through all puzzles, so that a while in which the machine is slow is in a round of few of them.
pub fn all(puzzles: &[Puzzle], engines: &[Engine]) -> Vec<Measured> {
    let mut all: Vec<Measured> = puzzles.iter().map(Measured::new).collect();
    for (i, puzzle) in (0..ROUNDS).flat_map(|_| puzzles.iter().enumerate()) {
        all[i].round(&puzzle.ticket, engines);
    }
    all
}

/// How many times longer one engine takes than the other, for each.
pub fn ratios<'a>(all: impl IntoIterator<Item = &'a Measured>, one: Engine, other: Engine) -> Ratios<&'a Measured> {
    Ratios::new(all.into_iter().map(|measured| (measured, measured.ratio(one, other))))
}

impl Measured {
    fn new(puzzle: &Puzzle) -> Measured {
        let Puzzle { family, name, ticket } = puzzle;
        assert!(reference::read(&reference::print(ticket)).is_ok(), "{name} is refused");
        let instances = ticket.clauses.iter().map(|clause| ticket.instances(clause)).sum();
        Measured { family, name: name.clone(), instances, outcome: grounded::fit(ticket), nanoseconds: [f64::INFINITY; 5] }
    }

    /// Each engine has a turn.
    fn round(&mut self, ticket: &Ticket, engines: &[Engine]) {
        let mut lent = Lent::new(ticket);
        for engine in engines {
            let quickest = turn(|calls| {
                let (found, took) = lent.call(*engine, calls);
                assert!(found == self.outcome, "{}, {}: {found:?}, expected {:?}", self.name, engine.name(), self.outcome);
                took
            });
            let best = &mut self.nanoseconds[*engine as usize];
            *best = best.min(checked(quickest, &format!("{}, {}", self.name, engine.name())));
        }
    }

    /// The entries made and the root, so that a walk that makes no entry has one too.
    pub fn places(&self) -> f64 {
        self.outcome.count as f64 + 1.0
    }

    /// What a call of an engine took, in nanoseconds.
    pub fn took(&self, engine: Engine) -> f64 {
        self.nanoseconds[engine as usize]
    }

    pub fn per_place(&self, engine: Engine) -> f64 {
        self.took(engine) / self.places()
    }

    /// How many times longer one engine takes than the other.
    pub fn ratio(&self, one: Engine, other: Engine) -> f64 {
        self.took(one) / self.took(other)
    }

    pub fn row(&self) -> Row {
        let [[a, b], [c, d]] = Engine::MEASURES.map(|measure| Engine::LIBRARY.map(|engine| self.ratio(engine, measure)));
        Row { family: self.family, name: self.name.clone(), ratios: [a, b, c, d] }
    }

    pub fn is_large(&self) -> bool {
        self.instances > MANY && self.outcome.count as u64 > MANY
    }
}

/// The least that a call took, of as many as make a turn; infinite where the clock shows no time.
fn turn(mut take: impl FnMut(u32) -> f64) -> f64 {
    let (mut sum, mut least, mut together) = (0.0, f64::INFINITY, 1);
    while sum < TURN && together <= MOST_TOGETHER {
        let took = take(together);
        sum += took;
        if took < TOGETHER {
            together *= 2;
        } else {
            least = least.min(took / together as f64);
        }
    }
    least
}
