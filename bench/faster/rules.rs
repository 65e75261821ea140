//! A ticket's clauses, those that matter, with where each fact can stand in them.

use super::atoms::Atoms;
use super::pattern::{Kind, Part, Pattern};
use super::slots::{Slot, Slots};
use super::wantable;
use crate::reference::Ticket;

pub struct Rules {
    pub atoms: Atoms,
    pub patterns: Vec<Pattern>,
    /// how many instances split
    pub splitting: u16,
    as_condition: Slots,
    as_alternative: Slots,
}

impl Rules {
    pub fn of(ticket: &Ticket) -> Rules {
        let atoms = Atoms::of(ticket);
        let (as_condition, as_alternative) = (Slots::new(&atoms), Slots::new(&atoms));
        let mut rules = Rules { atoms, patterns: Vec::with_capacity(ticket.clauses.len()), splitting: 0, as_condition, as_alternative };
        for clause in wantable::clauses(ticket) {
            let pattern = Pattern::of(clause, &rules.atoms, rules.splitting);
            if pattern.instances() > 0 {
                rules.add(pattern);
            }
        }
        rules
    }

    fn add(&mut self, pattern: Pattern) {
        let clause = self.patterns.len() as u16;
        for position in 0..pattern.length {
            let slots = if position < pattern.n { &mut self.as_condition } else { &mut self.as_alternative };
            slots.put(Slot { clause, position: position as u16 }, &pattern);
        }
        if pattern.kind == Kind::Splits {
            self.splitting += pattern.instances();
        }
        self.patterns.push(pattern);
    }

    /// Shows the clauses in which a fact can be a condition: each with the position, and the instances that have it there.
    pub fn asking<'a>(&'a self, fact: u16, show: impl FnMut(&'a Pattern, usize, Part)) {
        self.as_condition.each(fact, &self.atoms, &self.patterns, show);
    }

    /// Shows the clauses in which a fact can be an alternative.
    pub fn giving<'a>(&'a self, fact: u16, show: impl FnMut(&'a Pattern, usize, Part)) {
        self.as_alternative.each(fact, &self.atoms, &self.patterns, show);
    }
}
