//! A set of facts as bits.

/// Words for more facts than there are, so that no number needs a check.
const WORDS: usize = 64;

#[derive(Clone, Copy)]
pub struct Bits([u32; WORDS]);

impl Bits {
    pub const NONE: Bits = Bits([0; WORDS]);

    #[inline]
    pub fn hold(&self, fact: u16) -> bool {
        self.0[fact as usize / 32 % WORDS] >> (fact % 32) & 1 == 1
    }

    /// Puts in what is not there, and takes out what is.
    #[inline]
    pub fn turn(&mut self, fact: u16) {
        self.0[fact as usize / 32 % WORDS] ^= 1 << (fact % 32);
    }

    #[inline]
    pub fn put(&mut self, fact: u16) {
        self.0[fact as usize / 32 % WORDS] |= 1 << (fact % 32);
    }

    /// Whether one of some facts that stand together is there.
    #[inline]
    pub fn meet(&self, some: u64) -> bool {
        self.0[(some >> 32) as usize % WORDS] & some as u32 != 0
    }
}

/// Facts that stand together: which word, and its bits.
pub fn together(fact: u16) -> u64 {
    (fact as u64 / 32) << 32 | 1 << (fact % 32)
}
