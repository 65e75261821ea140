//! Which instances can be split.

use super::facts::Facts;
use super::pattern::{Instance, Pattern};

/// The conditions and the different alternatives of an instance, four of each: where there are fewer, a fact that always
/// holds, and the first alternative again.
type Split = [u16; 8];

/// By place in the walk's order. An instance is active where its conditions are true and its alternatives wanted.
pub struct Splits {
    of: Vec<Split>,
    active: Vec<u64>,
    log: Vec<u16>,
    /// Of each active one before this an alternative is true.
    floor: u16,
}

impl Splits {
    pub fn new(many: u16) -> Splits {
        Splits { of: vec![[0; 8]; many as usize], active: vec![0; many as usize / 64 + 1], log: Vec::with_capacity(64), floor: 0 }
    }

    pub fn put(&mut self, pattern: &Pattern, instance: &Instance, always: u16) {
        let split = &mut self.of[instance.order as usize];
        split[..4].fill(always);
        split[..pattern.n].copy_from_slice(&instance.atoms[..pattern.n]);
        split[4..].fill(instance.atoms[pattern.n]);
        let mut different = 4;
        for alternative in &instance.atoms[pattern.n..pattern.length] {
            if !split[4..different].contains(alternative) {
                split[different] = *alternative;
                different += 1;
            }
        }
    }

    #[inline]
    pub fn activate(&mut self, order: u16, truth: &Facts, wanted: &Facts) {
        let [a, b, c, d, w, x, y, z] = self.of[order as usize];
        let (word, bit) = (order as usize / 64, 1 << (order % 64));
        if truth.hold_all([a, b, c, d]) && wanted.hold_all([w, x, y, z]) && self.active[word] & bit == 0 {
            self.active[word] |= bit;
            self.log.push(order);
            self.floor = self.floor.min(order);
        }
    }

    /// The first active one of which no alternative is true.
    #[inline]
    pub fn first(&mut self, truth: &Facts) -> Option<u16> {
        let mut word = self.floor as usize / 64;
        let mut bits = self.active[word] & u64::MAX << (self.floor % 64);
        loop {
            while bits == 0 {
                word += 1;
                bits = *self.active.get(word)?;
            }
            let order = (word * 64) as u16 + bits.trailing_zeros() as u16;
            if !truth.hold_any(self.alternatives(order)) {
                self.floor = order;
                return Some(order);
            }
            bits &= bits - 1;
        }
    }

    #[inline]
    pub fn alternatives(&self, order: u16) -> [u16; 4] {
        let [.., w, x, y, z] = self.of[order as usize];
        [w, x, y, z]
    }

    #[inline]
    pub fn active(&self) -> usize {
        self.log.len()
    }

    /// Back to where so many were active, and this one was the first.
    #[inline]
    pub fn cut(&mut self, active: usize, first: u16) {
        while self.log.len() > active {
            let order = self.log.pop().expect("an instance to take back");
            self.active[order as usize / 64] ^= 1 << (order % 64);
        }
        self.floor = first;
    }
}
