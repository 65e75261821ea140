//! A clause, as the numbers of its atoms that grow with the values of its variables, and the way through its instances.

use super::atoms::Atoms;
use crate::reference::{self, is_variable, Clause};

const POSITIONS: usize = 8;
const VARIABLES: usize = 4;

/// The atoms' numbers, conditions first; and its place among the instances of all clauses that split.
#[derive(Clone, Copy, Default)]
pub struct Instance {
    pub atoms: [u16; POSITIONS],
    pub order: u16,
}

impl Instance {
    /// Goes on by so many of these steps.
    #[inline]
    fn go(&mut self, step: &Instance, times: u16) {
        self.atoms.iter_mut().zip(&step.atoms).for_each(|(number, weight)| *number = number.wrapping_add(weight.wrapping_mul(times)));
        self.order = self.order.wrapping_add(step.order.wrapping_mul(times));
    }
}

/// Some of a clause's instances: those that agree with this one in the variables that are bound, a bit for each.
#[derive(Clone, Copy, Default)]
pub struct Part {
    instance: Instance,
    bound: u8,
}

/// An atom of a clause: its predicate, its arguments as they stand, and a bit for each variable among them.
#[derive(Clone, Copy, Default)]
struct Position {
    predicate: u8,
    arity: u8,
    arguments: [u8; 3],
    variables: u8,
}

#[derive(Clone, Copy, PartialEq)]
pub enum Kind {
    Denies,
    Gives,
    Splits,
}

pub struct Pattern {
    pub kind: Kind,
    /// conditions
    pub n: usize,
    /// conditions and alternatives; a clause without alternatives has "false" for one
    pub length: usize,
    constants: u16,
    positions: [Position; POSITIONS],
    first: Instance,
    /// how an instance changes when a variable grows by one
    steps: [Instance; VARIABLES],
}

impl Pattern {
    /// The order of a clause that splits begins with this. An alternative that stands there again is left out.
    pub fn of(clause: &Clause, atoms: &Atoms, order: u16) -> Pattern {
        let Clause { conditions, alternatives } = clause;
        let (kind, n) = ([Kind::Denies, Kind::Gives, Kind::Splits][alternatives.len().min(2)], conditions.len());
        let first = Instance { atoms: [atoms.falsity; POSITIONS], order };
        let (positions, steps) = ([Position::default(); POSITIONS], [Instance::default(); VARIABLES]);
        let mut pattern = Pattern { kind, n, length: 0, constants: atoms.constants(), positions, first, steps };
        conditions.iter().for_each(|atom| pattern.take(atom, atoms));
        for (i, atom) in alternatives.iter().enumerate() {
            if !alternatives[..i].contains(atom) {
                pattern.take(atom, atoms);
            }
        }
        if kind == Kind::Denies {
            pattern.positions[n].predicate = atoms.firsts.len() as u8 - 1;
            pattern.length += 1;
        }
        pattern.number();
        pattern
    }

    /// The next position.
    fn take(&mut self, atom: &reference::Atom, atoms: &Atoms) {
        let i = self.length;
        self.length += 1;
        let position = &mut self.positions[i];
        (position.predicate, position.arity) = (atom.predicate, atom.arguments.len() as u8);
        self.first.atoms[i] = atoms.firsts[atom.predicate as usize];
        let mut weight = 1;
        for (place, argument) in atom.arguments.iter().enumerate().rev() {
            position.arguments[place] = *argument;
            if is_variable(*argument) {
                let variable = *argument as usize & 3;
                position.variables |= 1 << variable;
                self.steps[variable].atoms[i] += weight;
            } else {
                self.first.atoms[i] += weight * *argument as u16;
            }
            weight = weight.wrapping_mul(self.constants);
        }
    }

    /// The last variable changes fastest.
    fn number(&mut self) {
        let (variables, mut step) = (self.variables().count_ones() as usize, 1);
        for variable in (0..variables).rev() {
            self.steps[variable].order = step;
            step = step.wrapping_mul(self.constants);
        }
    }

    fn variables(&self) -> u8 {
        self.positions.iter().fold(0, |variables, position| variables | position.variables)
    }

    pub fn instances(&self) -> u16 {
        self.constants.pow(self.variables().count_ones())
    }

    pub fn predicate(&self, position: usize) -> usize {
        self.positions[position].predicate as usize
    }

    /// The predicates of the positions in this range, a bit for each.
    pub fn predicates(&self, positions: std::ops::Range<usize>) -> u64 {
        self.positions[positions].iter().fold(0, |predicates, position| predicates | 1 << position.predicate)
    }

    /// Whether each atom of its predicate is at this position in some instance: its arguments are variables and different.
    pub fn takes_all(&self, position: usize) -> bool {
        let position = &self.positions[position];
        position.variables.count_ones() == position.arity as u32
    }

    /// All instances.
    pub fn whole(&self) -> Part {
        Part { instance: self.first, bound: 0 }
    }

    /// Shows each fact that can be at this position, with the instances that have it there.
    pub fn at(&self, position: usize, mut show: impl FnMut(u16, Part)) {
        let bound = self.positions[position].variables;
        self.along(self.whole(), position, &mut |_, instance| {
            show(instance.atoms[position], Part { instance: *instance, bound });
            false
        });
    }

    /// The instances with these arguments at this position, where all are variables and different.
    pub fn bind(&self, position: usize, arguments: &[u16; 3]) -> Part {
        let Position { arity, arguments: variables, variables: bound, .. } = &self.positions[position];
        let mut part = Part { instance: self.first, bound: *bound };
        for (variable, value) in variables[..*arity as usize].iter().zip(arguments) {
            part.instance.go(&self.steps[*variable as usize & (VARIABLES - 1)], *value);
        }
        part
    }

    /// Goes round the positions from this one on, at each with all values of the variables that stand there first. What is
    /// shown has the right number there and before; the way goes on where `show` says so.
    pub fn along(&self, part: Part, from: usize, show: &mut impl FnMut(usize, &Instance) -> bool) {
        self.go_on(part, from, self.length, show);
    }

    fn go_on(&self, part: Part, mut at: usize, left: usize, show: &mut impl FnMut(usize, &Instance) -> bool) {
        for left in (0..left).rev() {
            let fresh = self.positions[at].variables & !part.bound;
            if fresh != 0 {
                return self.spread(part, at, left, fresh, show);
            }
            if !show(at, &part.instance) {
                return;
            }
            at = self.next(at);
        }
    }

    /// Gives each value to the first of the variables that are fresh at a position.
    fn spread(&self, part: Part, at: usize, left: usize, fresh: u8, show: &mut impl FnMut(usize, &Instance) -> bool) {
        let variable = fresh.trailing_zeros() as usize & (VARIABLES - 1);
        let others = fresh & !(1 << variable);
        let mut part = Part { bound: part.bound | 1 << variable, ..part };
        for _ in 0..self.constants {
            if others != 0 {
                self.spread(part, at, left, others, show);
            } else if show(at, &part.instance) {
                self.go_on(part, self.next(at), left, show);
            }
            part.instance.go(&self.steps[variable], 1);
        }
    }

    fn next(&self, position: usize) -> usize {
        if position + 1 == self.length { 0 } else { position + 1 }
    }
}
