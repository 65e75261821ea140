//! A faster engine than `grounded`, again with no proof: nothing is grounded before it is needed. The root is closed and marked by the clauses; what comes
//! of a fact below it is listed when the fact is first met, with all that the root has decided left out. It makes the walk of document 01; the benchmark's
//! second measure.

mod atoms;
mod bits;
mod consequences;
mod facts;
mod fates;
mod held;
mod lists;
mod pattern;
mod root;
mod rules;
mod slots;
mod splits;
mod wantable;

use crate::reference::Ticket;
use crate::walk::{Outcome, Verdict};
use held::{Held, Length};
use rules::Rules;

pub fn fit(ticket: &Ticket) -> Outcome {
    let rules = Rules::of(ticket);
    match Held::begin(&rules) {
        None => Outcome { verdict: Verdict::None, count: 0, deepest: 0, fitting: None },
        Some(held) => Walk { held, path: Vec::with_capacity(16), count: 0, deepest: 0 }.run(u32::from_be_bytes(ticket.limit)),
    }
}

/// A node: the instance that it splits, the different alternatives, of which the first stands again after the last, the next
/// one, and how much is held.
struct Node {
    split: u16,
    alternatives: [u16; 4],
    next: usize,
    length: Length,
}

impl Node {
    #[inline]
    fn next(&mut self) -> Option<u16> {
        let alternative = *self.alternatives.get(self.next)?;
        let is_there = self.next == 0 || alternative != self.alternatives[0];
        self.next += 1;
        is_there.then_some(alternative)
    }
}

struct Walk<'a> {
    held: Held<'a>,
    path: Vec<Node>,
    count: u32,
    deepest: u32,
}

impl Walk<'_> {
    fn run(mut self, limit: u32) -> Outcome {
        while self.descend() {
            loop {
                let Some(alternative) = self.next_alternative() else { return self.ended(Verdict::None) };
                if self.count == limit {
                    return self.ended(Verdict::Spent);
                }
                self.count += 1;
                self.deepest = self.deepest.max(self.path.len() as u32);
                if self.held.enter(alternative) {
                    break;
                }
            }
        }
        Outcome { verdict: Verdict::Fits, count: self.count, deepest: self.deepest, fitting: Some(self.held.fitting()) }
    }

    fn ended(&self, verdict: Verdict) -> Outcome {
        Outcome { verdict, count: self.count, deepest: self.deepest, fitting: None }
    }

    /// Makes the place a node, which splits the first instance that can be. Whether there is one.
    #[inline]
    fn descend(&mut self) -> bool {
        let Some(split) = self.held.split() else { return false };
        self.path.push(Node { split, alternatives: self.held.alternatives(split), next: 0, length: self.held.length() });
        true
    }

    /// That of the deepest node that has one left, which is backed out to.
    #[inline]
    fn next_alternative(&mut self) -> Option<u16> {
        loop {
            let alternative = self.path.last_mut()?.next();
            if alternative.is_some() {
                return alternative;
            }
            self.path.pop();
            let node = self.path.last()?;
            self.held.go_back(node.length, node.split);
        }
    }
}
