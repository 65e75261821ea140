//! What a test has met, by kind and name, and how often.
#![allow(dead_code)] // each program uses its own part

use crate::threads::Tally;
use std::collections::{BTreeMap, BTreeSet};

/// What a test keeps of its own, and what each run of it must meet, by kind and name.
pub trait Required: Default + Send + 'static {
    fn required() -> Vec<(&'static str, String)>;
}

#[derive(Default)]
pub struct Met<R> {
    pub calls: u64,
    pub own: R,
    times: BTreeMap<(&'static str, String), u64>,
}

impl<R> Met<R> {
    pub fn note(&mut self, kind: &'static str, name: String) {
        *self.times.entry((kind, name)).or_default() += 1;
    }
}

impl<R: Required> Tally for Met<R> {
    fn add(&mut self, other: &Met<R>) {
        self.calls += other.calls;
        other.times.iter().for_each(|(key, times)| *self.times.entry(key.clone()).or_default() += times);
    }

    fn print(&self) {
        let kinds: BTreeSet<&str> = self.times.keys().map(|(kind, _)| *kind).collect();
        for kind in kinds {
            let met: Vec<String> = self.times.iter().filter(|((by, _), _)| *by == kind).map(|((_, name), times)| format!("{name} {times}")).collect();
            println!("{kind}: {}", met.join(", "));
        }
    }

    fn missing(&self) -> Vec<String> {
        R::required().into_iter().filter(|key| !self.times.contains_key(key)).map(|(kind, name)| format!("{kind} {name}")).collect()
    }

    fn agreed(&self) -> String {
        format!("{} calls", self.calls)
    }
}
