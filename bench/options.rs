//! The options that a program is started with, each a name and a word.
#![allow(dead_code)] // each program uses its own part

use crate::families;

pub struct Options {
    of: Vec<(String, String)>,
}

impl Options {
    /// Only these are known.
    pub fn read(known: &[&str]) -> Options {
        let arguments: Vec<String> = std::env::args().skip(1).collect();
        let option = |pair: &[String]| match pair {
            [name, word] if known.contains(&name.as_str()) => (name.clone(), word.clone()),
            _ => panic!("not an option with its word: {pair:?}; known are {known:?}"),
        };
        Options { of: arguments.chunks(2).map(option).collect() }
    }

    pub fn get(&self, name: &str) -> Option<&str> {
        self.of.iter().find(|(other, _)| other == name).map(|(_, word)| word.as_str())
    }

    /// What families are drawn by.
    pub fn seed(&self) -> u64 {
        self.get("--seed").map_or(families::SEED, |word| word.parse().expect("the seed is a number"))
    }
}
