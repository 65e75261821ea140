//! A host's buffers, each as large as is required and no larger, lent to one operation after another.
#![allow(dead_code)] // each program uses its own part

use crate::library::{self, Session};
use crate::reference::{ANSWER, RULES, SLIP, TABLE, TEXT_OUT, WORK};

#[derive(Clone)]
pub struct Host {
    pub table: Vec<u8>,
    pub out: Vec<u8>,
    pub rules: Vec<u8>,
    pub answer: Vec<u8>,
    pub work: Vec<u8>,
    pub slip: Vec<u8>,
    pub session: Session,
    /// open facts, and the two counts that a call with them leaves
    pub facts: Vec<u32>,
    pub counts: [u32; 2],
    /// what a call by parts leaves
    pub count: u64,
}

/// The engines by name whose walk is one.
pub const ENGINES: [(&str, fn(&mut Host) -> u64); 2] = [("relevancy", Host::fit_relevancy), ("magic", Host::fit_magic)];

/// Their calls with open facts.
pub const WITH_FACTS: [(&str, fn(&mut Host) -> u64); 2] = [("relevancy", Host::assume_relevancy), ("magic", Host::assume_magic)];

/// Their calls by parts.
pub const BY_PARTS: [(&str, fn(&mut Host) -> u64); 2] = [("relevancy", Host::parts_relevancy), ("magic", Host::parts_magic)];

/// Their calls with a session: a first run, and going on with a further limit.
pub type Begin = fn(&mut Host) -> u64;
pub type Resume = fn(&mut Host, u32) -> u64;
pub const WITH_SESSION: [(&str, Begin, Resume); 2] =
    [("relevancy", Host::begin_relevancy, Host::resume_relevancy), ("magic", Host::begin_magic, Host::resume_magic)];

impl Host {
    pub fn new() -> Host {
        let buffer = |len: usize| vec![0xEE; len];
        let (table, out, rules) = (buffer(TABLE), buffer(TEXT_OUT), buffer(RULES));
        let (answer, work, slip) = (buffer(ANSWER), buffer(WORK), buffer(SLIP));
        Host { table, out, rules, answer, work, slip, session: Session::EMPTY, facts: Vec::new(), counts: [0xEEEE; 2], count: 0xEEEE }
    }

    pub fn read(&mut self, text: &[u8]) -> u64 {
        library::read(text, &mut self.table)
    }

    pub fn write(&mut self) -> u64 {
        library::write(&self.table, &mut self.out)
    }

    pub fn offer(&mut self, frame: &[u8]) -> u64 {
        library::offer(&self.table, frame, &mut self.slip)
    }

    pub fn set(&mut self) -> u64 {
        library::set(&mut self.table, &self.slip)
    }

    pub fn rewrite(&mut self) -> u64 {
        library::rewrite(&self.table, &mut self.rules)
    }

    pub fn fit_relevancy(&mut self) -> u64 {
        library::fit_relevancy(&self.table, &mut self.answer, &mut self.work)
    }

    pub fn fit_magic(&mut self) -> u64 {
        library::fit_magic(&self.table, &mut self.rules, &mut self.answer, &mut self.work)
    }

    pub fn fit_staged(&mut self) -> u64 {
        library::fit_staged(&self.table, &mut self.answer, &mut self.work)
    }

    pub fn begin_relevancy(&mut self) -> u64 {
        library::begin_relevancy(&mut self.session, &self.table, &mut self.answer, &mut self.work)
    }

    pub fn begin_magic(&mut self) -> u64 {
        library::begin_magic(&mut self.session, &self.table, &mut self.rules, &mut self.answer, &mut self.work)
    }

    pub fn resume_relevancy(&mut self, further: u32) -> u64 {
        library::resume_relevancy(&mut self.session, further, &self.table, &mut self.answer, &mut self.work)
    }

    pub fn resume_magic(&mut self, further: u32) -> u64 {
        library::resume_magic(&mut self.session, further, &self.table, &mut self.rules, &mut self.answer, &mut self.work)
    }

    pub fn assume_relevancy(&mut self) -> u64 {
        library::assume_relevancy(&self.table, &self.facts, self.counts.each_mut(), &self.answer, &mut self.work)
    }

    pub fn assume_magic(&mut self) -> u64 {
        library::assume_magic(&self.table, &self.facts, self.counts.each_mut(), &mut self.rules, &self.answer, &mut self.work)
    }

    pub fn parts_relevancy(&mut self) -> u64 {
        library::parts_relevancy(&self.table, &mut self.count, &mut self.answer, &mut self.work)
    }

    pub fn parts_magic(&mut self) -> u64 {
        library::parts_magic(&self.table, &mut self.count, &mut self.rules, &mut self.answer, &mut self.work)
    }

    pub fn judge(&mut self) -> u64 {
        library::judge(&self.table, &self.answer)
    }

    pub fn holding(&mut self, clause: u32, values: [u32; 4]) -> u64 {
        library::holding(&self.table, &self.answer, clause, values)
    }
}
