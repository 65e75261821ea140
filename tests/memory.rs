//! A lent buffer amid other bytes, so that each byte that a call may not touch can be looked at.
#![allow(dead_code)] // each program uses its own part

use crate::random::Random;
use crate::report::Report;

const MARGIN: usize = 40;

#[derive(Clone, PartialEq, Eq)]
pub struct Memory {
    bytes: Vec<u8>,
    len: usize,
}

impl Memory {
    /// A lent buffer of `len` bytes; it and what lies around it are random.
    pub fn random(random: &mut Random, len: usize) -> Memory {
        let mut bytes = vec![0; MARGIN + len + MARGIN];
        random.fill(&mut bytes);
        Memory { bytes, len }
    }

    /// A lent buffer that holds `part`. What lies around it reads like more text, for a reader that
    /// looks past the end.
    pub fn holding(random: &mut Random, part: &[u8]) -> Memory {
        let mut memory = Memory { bytes: Vec::with_capacity(MARGIN + part.len() + MARGIN), len: part.len() };
        memory.bytes.extend((0..MARGIN).map(|_| random.pick(b"\n\n0F")));
        memory.bytes.extend(part);
        memory.bytes.extend((0..MARGIN).map(|_| random.pick(b"\n\n0F")));
        memory
    }

    pub fn lent(&self) -> &[u8] {
        &self.bytes[MARGIN..][..self.len]
    }

    pub fn lent_mut(&mut self) -> &mut [u8] {
        &mut self.bytes[MARGIN..][..self.len]
    }

    /// The same memory, but the lent buffer begins with `start`.
    pub fn beginning_with(&self, start: &[u8]) -> Memory {
        let mut memory = self.clone();
        memory.lent_mut()[..start.len()].copy_from_slice(start);
        memory
    }

    /// The same memory, but the lent buffer ends earlier.
    pub fn truncated(&self, len: usize) -> Memory {
        Memory { bytes: self.bytes.clone(), len }
    }

    /// Where the two differ first, counted from the start of the lent buffer.
    fn first_difference(&self, other: &Memory) -> Option<isize> {
        if self == other {
            return None;
        }
        let at = self.bytes.iter().zip(&other.bytes).position(|(a, b)| a != b)?;
        Some(at as isize - MARGIN as isize)
    }
}

pub fn same_bytes(what: &str, expected: &Memory, found: &Memory, about: impl Fn() -> String) -> Result<(), Report> {
    match expected.first_difference(found) {
        None => Ok(()),
        Some(at) => Err(format!("the {what} differs at byte {at}: {}", about())),
    }
}

/// A length below the one required, often just below.
pub fn less_than(random: &mut Random, required: usize) -> usize {
    let any = random.below(required);
    random.pick(&[0, 1, required / 2, required - 2, required - 1, required - 1, any, any])
}
