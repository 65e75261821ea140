//! For each fact some lists of words, made when the fact is first met.

use std::ops::Range;

const MANY: usize = 6;

/// The lists of one fact.
pub type Draft = [Vec<u64>; MANY];

#[derive(Default)]
pub struct Lists {
    words: Vec<u64>,
    /// of each fact the ends of its lists: each begins where the one before it ends, the first one at the first of these
    ends: Vec<[u32; MANY + 1]>,
    draft: Draft,
}

impl Lists {
    #[inline]
    pub fn make(&mut self, fact: u16, fill: impl FnOnce(&mut Draft)) {
        if self.ends.get(fact as usize).is_none_or(|ends| ends[0] == 0) {
            fill(&mut self.draft);
            self.keep(fact);
        }
    }

    /// Keeps the draft as a fact's lists, and leaves it empty.
    fn keep(&mut self, fact: u16) {
        if self.ends.len() <= fact as usize {
            self.ends.resize(fact as usize + 1, [0; MANY + 1]);
            self.words.resize(self.words.len().max(1), 0); // no list begins at 0
        }
        let ends = &mut self.ends[fact as usize];
        ends[0] = self.words.len() as u32;
        for (list, end) in self.draft.iter_mut().zip(&mut ends[1..]) {
            self.words.append(list);
            *end = self.words.len() as u32;
        }
    }

    /// Whether all from one of its lists to another are empty.
    #[inline]
    pub fn are_empty(&self, fact: u16, first: usize, last: usize) -> bool {
        let ends = &self.ends[fact as usize];
        ends[first] == ends[last + 1]
    }

    /// Where a list stands among all words.
    #[inline]
    pub fn range(&self, fact: u16, which: usize) -> Range<usize> {
        let ends = &self.ends[fact as usize];
        ends[which] as usize..ends[which + 1] as usize
    }

    #[inline]
    pub fn word(&self, i: usize) -> u64 {
        self.words[i]
    }

    #[inline]
    pub fn list(&self, fact: u16, which: usize) -> &[u64] {
        &self.words[self.range(fact, which)]
    }
}
