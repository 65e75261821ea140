//! The instances of a ticket, each grounded once: flat arrays of the numbers of atoms. Splitting instances and chaining
//! ones are numbered apart, both in the walk's order.

use super::rows::Rows;
use crate::reference::{is_variable, Atom, Clause, Ticket};

/// Document 01 lets a clause have no more.
const MOST_ATOMS: usize = 8;
const MOST_VARIABLES: usize = 4;

pub struct Instances {
    /// "false" has the number after the last atom.
    pub falsity: u16,
    /// Each has its different alternatives; there can be just one.
    pub splitting: Kind,
    /// Each has one alternative: where the clause has none, "false".
    pub chaining: Kind,
}

pub struct Kind {
    pub conditions: Rows,
    pub alternatives: Rows,
}

impl Instances {
    pub fn of(ticket: &Ticket) -> Instances {
        let firsts = firsts(ticket);
        let empty = || Kind { conditions: Rows::new(), alternatives: Rows::new() };
        let mut instances = Instances { falsity: firsts[ticket.arities.len()], splitting: empty(), chaining: empty() };
        for clause in &ticket.clauses {
            instances.add(&Pattern::of(clause, &firsts, ticket.constants as u16), clause);
        }
        instances
    }

    fn add(&mut self, pattern: &Pattern, clause: &Clause) {
        let (n, m) = (clause.conditions.len(), clause.alternatives.len());
        let kind = if m >= 2 { &mut self.splitting } else { &mut self.chaining };
        let falsity = self.falsity;
        pattern.each_instance(|numbers| {
            kind.conditions.push(&numbers[..n]);
            match m {
                0 => kind.alternatives.push(&[falsity]),
                _ => kind.alternatives.push_distinct(&numbers[n..n + m]),
            }
        });
    }
}

/// The number of each predicate's first atom, and after the last the number of atoms.
fn firsts(ticket: &Ticket) -> Vec<u16> {
    let mut firsts = vec![0];
    for arity in &ticket.arities {
        firsts.push(firsts[firsts.len() - 1] + ticket.power(*arity as usize) as u16);
    }
    firsts
}

/// A clause: the numbers of its atoms where all variables are constant 0, and how much each number grows with each
/// variable.
struct Pattern {
    constants: u16,
    variables: usize,
    atoms: [u16; MOST_ATOMS],
    weights: [[u16; MOST_ATOMS]; MOST_VARIABLES],
}

impl Pattern {
    fn of(clause: &Clause, firsts: &[u16], constants: u16) -> Pattern {
        let mut pattern = Pattern { constants, variables: 0, atoms: [0; MOST_ATOMS], weights: [[0; MOST_ATOMS]; MOST_VARIABLES] };
        for (i, atom) in clause.conditions.iter().chain(&clause.alternatives).enumerate() {
            pattern.atoms[i] = firsts[atom.predicate as usize];
            pattern.weigh(i, atom);
        }
        pattern
    }

    fn weigh(&mut self, i: usize, atom: &Atom) {
        let mut weight: u16 = 1;
        for argument in atom.arguments.iter().rev() {
            if is_variable(*argument) {
                let variable = *argument as usize - 0x80;
                self.variables = self.variables.max(variable + 1);
                self.weights[variable][i] += weight;
            } else {
                self.atoms[i] += weight * *argument as u16;
            }
            weight *= self.constants;
        }
    }

    /// Shows the atoms' numbers for each way to put a constant for each variable; the first variable changes slowest.
    fn each_instance(&self, mut show: impl FnMut(&[u16; MOST_ATOMS])) {
        let mut values = [0; MOST_VARIABLES];
        let mut numbers = self.atoms;
        for _ in 0..(self.constants as usize).pow(self.variables as u32) {
            show(&numbers);
            self.advance(&mut values, &mut numbers);
        }
    }

    /// Goes on to the next values: the last variable by one, and where it is at its end back to 0, and on with the one
    /// before it.
    #[inline]
    fn advance(&self, values: &mut [u16; MOST_VARIABLES], numbers: &mut [u16; MOST_ATOMS]) {
        for variable in (0..self.variables).rev() {
            let steps = numbers.iter_mut().zip(&self.weights[variable]);
            values[variable] += 1;
            if values[variable] < self.constants {
                return steps.for_each(|(number, weight)| *number += weight);
            }
            values[variable] = 0;
            steps.for_each(|(number, weight)| *number -= weight * (self.constants - 1));
        }
    }
}
