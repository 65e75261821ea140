//! What the root decides for good about each fact, so that it is not looked at again below.

use super::bits::Bits;
use super::facts::Facts;
use super::pattern::{Kind, Pattern};
use super::rules::Rules;

pub struct Fates {
    /// what is true at the root, and so everywhere
    always: Bits,
    /// what else may be true below it
    open: Bits,
    /// what is not wanted at the root, and makes a difference to what can be split
    unsettled: Bits,
    /// the predicates of such atoms, a bit for each
    pub unsettled_predicates: u64,
}

impl Fates {
    pub fn of(rules: &Rules, truth: &Facts, wanted: &Facts) -> Fates {
        let mut fates = Fates { always: Bits::NONE, open: Bits::NONE, unsettled: Bits::NONE, unsettled_predicates: 0 };
        truth.each().for_each(|fact| fates.always.put(fact));
        let (open, matters) = (reached(rules, |pattern| pattern.kind == Kind::Gives), reached(rules, |_| true));
        for (predicate, ends) in rules.atoms.firsts.windows(2).enumerate().filter(|(predicate, _)| (open | matters) >> predicate & 1 == 1) {
            for atom in ends[0]..ends[1] {
                if open >> predicate & 1 == 1 && !truth.holds(atom) {
                    fates.open.put(atom);
                }
                if matters >> predicate & 1 == 1 && !wanted.holds(atom) {
                    fates.unsettled.put(atom);
                    fates.unsettled_predicates |= 1 << predicate;
                }
            }
        }
        fates
    }

    #[inline]
    pub fn is_always(&self, fact: u16) -> bool {
        self.always.hold(fact)
    }

    #[inline]
    pub fn is_open(&self, fact: u16) -> bool {
        self.open.hold(fact)
    }

    #[inline]
    pub fn is_never(&self, fact: u16) -> bool {
        !self.is_open(fact) && !self.is_always(fact)
    }

    #[inline]
    pub fn is_unsettled(&self, fact: u16) -> bool {
        self.unsettled.hold(fact)
    }
}

/// The predicates of the alternatives of clauses that split; and with that of a condition those of its clause's alternatives, where the clause is such.
fn reached(rules: &Rules, passes_on: impl Fn(&Pattern) -> bool) -> u64 {
    let given = |pattern: &Pattern| pattern.predicates(pattern.n..pattern.length);
    let mut all = rules.patterns.iter().filter(|pattern| pattern.kind == Kind::Splits).fold(0, |all, pattern| all | given(pattern));
    loop {
        let before = all;
        for pattern in rules.patterns.iter().filter(|pattern| passes_on(pattern)) {
            if pattern.predicates(0..pattern.n) & all != 0 {
                all |= given(pattern);
            }
        }
        if all == before {
            return all;
        }
    }
}
