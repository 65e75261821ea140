//! The ground atoms of a ticket by number, and two facts after them: "false", and one that always holds.

use crate::reference::Ticket;

pub struct Atoms {
    pub falsity: u16,
    pub always: u16,
    constants: u16,
    arities: Vec<u8>,
    /// of each predicate the number of its first atom; of "false" its own
    pub firsts: Vec<u16>,
    /// of each atom
    predicates: Vec<u8>,
}

impl Atoms {
    pub fn of(ticket: &Ticket) -> Atoms {
        let (constants, arities) = (ticket.constants as u16, [&ticket.arities[..], &[0]].concat());
        let mut atoms = Atoms { falsity: 0, always: 1, constants, arities, firsts: Vec::with_capacity(33), predicates: Vec::new() };
        for (predicate, arity) in ticket.arities.iter().enumerate() {
            atoms.firsts.push(atoms.falsity);
            atoms.falsity += atoms.constants.pow(*arity as u32);
            atoms.predicates.resize(atoms.falsity as usize, predicate as u8);
        }
        atoms.firsts.push(atoms.falsity);
        atoms.always = atoms.falsity + 1;
        atoms
    }

    pub fn constants(&self) -> u16 {
        self.constants
    }

    /// "false" has one of its own, after the last.
    pub fn predicate(&self, fact: u16) -> usize {
        self.predicates.get(fact as usize).map_or(self.firsts.len() - 1, |predicate| *predicate as usize)
    }

    /// As many as the predicate has, and 0 after them.
    pub fn arguments(&self, fact: u16) -> [u16; 3] {
        let predicate = self.predicate(fact);
        let mut rest = fact - self.firsts[predicate];
        let mut arguments = [0; 3];
        for argument in arguments[..self.arities[predicate] as usize].iter_mut().rev() {
            (rest, *argument) = (rest / self.constants, rest % self.constants);
        }
        arguments
    }
}
