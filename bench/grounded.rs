//! What a Rust programmer would write to fit a ticket quickly, with no proof: each instance grounded once, a counter for
//! what each still lacks, and a log by which backing out undoes. True and wanted facts only grow going down, so nothing
//! is found twice on a path. It makes the walk of document 01; the benchmark's measure.

mod facts;
mod first_of;
mod held;
mod instances;
mod places;
mod rows;
mod splits;

use crate::reference::Ticket;
use crate::walk::{Outcome, Verdict};
use held::{Held, Length};
use instances::Instances;
use places::Places;

pub fn fit(ticket: &Ticket) -> Outcome {
    let instances = Instances::of(ticket);
    let places = Places::of(&instances);
    let walk = Walk { instances: &instances, held: Held::new(&instances, &places), path: Vec::new() };
    walk.run(u32::from_be_bytes(ticket.limit))
}

/// A node: the instance that it splits, the next alternative, and how many facts it holds.
struct Node {
    instance: u16,
    next: usize,
    length: Length,
}

struct Walk<'a> {
    instances: &'a Instances,
    held: Held<'a>,
    path: Vec<Node>,
}

impl Walk<'_> {
    fn run(mut self, limit: u32) -> Outcome {
        let (mut count, mut deepest) = (0, 0);
        let mut goes_on = self.held.begin();
        loop {
            if goes_on && !self.split() {
                return Outcome { verdict: Verdict::Fits, count, deepest, fitting: Some(self.held.fitting()) };
            }
            let Some(alternative) = self.next_alternative() else { return Outcome { verdict: Verdict::None, count, deepest, fitting: None } };
            if count == limit {
                return Outcome { verdict: Verdict::Spent, count, deepest, fitting: None };
            }
            count += 1;
            deepest = deepest.max(self.path.len() as u32);
            goes_on = self.held.enter(alternative);
        }
    }

    /// Makes the place a node, which splits the first instance that can be. Whether there is one.
    fn split(&mut self) -> bool {
        self.held.mark();
        let Some(instance) = self.held.splits.ready.first() else { return false };
        self.path.push(Node { instance, next: 0, length: self.held.length() });
        true
    }

    /// Backs out to the deepest node that has an alternative left.
    fn next_alternative(&mut self) -> Option<u16> {
        while let Some(node) = self.path.last_mut() {
            let alternative = self.instances.splitting.alternatives.of(node.instance).get(node.next);
            node.next += 1;
            self.held.undo(node.length);
            if alternative.is_some() {
                return alternative.copied();
            }
            self.path.pop();
        }
        None
    }
}
