//! A set of facts that grows and is cut back.

use super::bits::Bits;

/// What is held, and the log of it in the order found.
pub struct Facts {
    held: Bits,
    log: Vec<u16>,
}

impl Facts {
    pub fn new() -> Facts {
        Facts { held: Bits::NONE, log: Vec::with_capacity(64) }
    }

    #[inline]
    pub fn holds(&self, fact: u16) -> bool {
        self.held.hold(fact)
    }

    #[inline]
    pub fn hold_all<const N: usize>(&self, facts: [u16; N]) -> bool {
        facts.into_iter().all(|fact| self.holds(fact))
    }

    #[inline]
    pub fn hold_any<const N: usize>(&self, facts: [u16; N]) -> bool {
        facts.into_iter().any(|fact| self.holds(fact))
    }

    /// Whether one of some facts that stand together is held.
    #[inline]
    pub fn meet(&self, some: u64) -> bool {
        self.held.meet(some)
    }

    #[inline]
    pub fn add(&mut self, fact: u16) {
        if !self.holds(fact) {
            self.held.turn(fact);
            self.log.push(fact);
        }
    }

    #[inline]
    pub fn len(&self) -> usize {
        self.log.len()
    }

    #[inline]
    pub fn at(&self, i: usize) -> Option<u16> {
        self.log.get(i).copied()
    }

    pub fn each(&self) -> impl Iterator<Item = u16> + '_ {
        self.log.iter().copied()
    }

    #[inline]
    pub fn cut(&mut self, to: usize) {
        while self.log.len() > to {
            let fact = self.log.pop().expect("a fact to take back");
            self.held.turn(fact);
        }
    }
}
