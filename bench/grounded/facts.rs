//! A set of facts that grows and is undone.

/// What is held, and the log of it in the order found.
pub struct Facts {
    held: Vec<bool>,
    pub log: Vec<u16>,
}

impl Facts {
    pub fn new(facts: usize) -> Facts {
        Facts { held: vec![false; facts], log: Vec::with_capacity(facts) }
    }

    #[inline]
    pub fn holds(&self, fact: u16) -> bool {
        self.held[fact as usize]
    }

    #[inline]
    pub fn add(&mut self, fact: u16) {
        if !std::mem::replace(&mut self.held[fact as usize], true) {
            self.log.push(fact);
        }
    }

    #[inline]
    pub fn take_last(&mut self) -> u16 {
        let fact = self.log.pop().expect("a fact to undo");
        self.held[fact as usize] = false;
        fact
    }
}
