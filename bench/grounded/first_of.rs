//! A set of numbers that gives its least one quickly: a bit for each number, and a bit for each word of bits that is not
//! empty.

pub struct FirstOf {
    words: Vec<u64>,
    filled: Vec<u64>,
}

impl FirstOf {
    /// An empty set of numbers below `many`.
    pub fn new(many: usize) -> FirstOf {
        let words = many.div_ceil(64);
        FirstOf { words: vec![0; words], filled: vec![0; words.div_ceil(64)] }
    }

    #[inline]
    pub fn put(&mut self, number: u16) {
        let word = number as usize / 64;
        self.words[word] |= 1 << (number % 64);
        self.filled[word / 64] |= 1 << (word % 64);
    }

    #[inline]
    pub fn remove(&mut self, number: u16) {
        let word = number as usize / 64;
        self.words[word] &= !(1 << (number % 64));
        if self.words[word] == 0 {
            self.filled[word / 64] &= !(1 << (word % 64));
        }
    }

    #[inline]
    pub fn first(&self) -> Option<u16> {
        let place = self.filled.iter().position(|words| *words != 0)?;
        let word = place * 64 + self.filled[place].trailing_zeros() as usize;
        Some((word * 64) as u16 + self.words[word].trailing_zeros() as u16)
    }
}
