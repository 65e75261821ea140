//! A ticket as data: its counts, arities and clauses, the numbers of its ground atoms, and its text.

use crate::spell::hex;

#[derive(Clone, Debug, PartialEq, Eq)]
pub struct Ticket {
    pub constants: u8,
    pub limit: u32,
    pub arities: Vec<u8>,
    pub clauses: Vec<Clause>,
}

#[derive(Clone, Debug, PartialEq, Eq)]
pub struct Clause {
    pub conditions: Vec<Atom>,
    pub alternatives: Vec<Atom>,
}

/// Arguments are as in the text: 00 to 1F a constant, 80 to 83 a variable.
#[derive(Clone, Debug, PartialEq, Eq)]
pub struct Atom {
    pub predicate: u8,
    pub arguments: Vec<u8>,
}

pub const FIRST_VARIABLE: u8 = 0x80;

impl Atom {
    /// The atom with these values put for the variables.
    pub fn under(&self, values: &[u8]) -> Atom {
        let value = |argument: &u8| if *argument < FIRST_VARIABLE { *argument } else { values[(*argument - FIRST_VARIABLE) as usize] };
        Atom { predicate: self.predicate, arguments: self.arguments.iter().map(value).collect() }
    }

    pub fn bytes(&self) -> Vec<u8> {
        [&[self.predicate], &self.arguments[..]].concat()
    }
}

impl Clause {
    pub fn atoms(&self) -> impl Iterator<Item = &Atom> {
        self.conditions.iter().chain(&self.alternatives)
    }

    /// How many variables: they are 80, 81, 82, 83, as many as there are.
    pub fn variables(&self) -> usize {
        let variables = self.atoms().flat_map(|atom| &atom.arguments).filter(|argument| **argument >= FIRST_VARIABLE);
        variables.max().map_or(0, |last| (*last - FIRST_VARIABLE) as usize + 1)
    }

    fn frame(&self) -> Vec<u8> {
        let counts = [0x03, self.conditions.len() as u8, self.alternatives.len() as u8];
        counts.into_iter().chain(self.atoms().flat_map(Atom::bytes)).collect()
    }
}

impl Ticket {
    /// c to the power k: the ground atoms of a predicate of arity k, or the instances of a clause with k variables.
    pub fn power(&self, k: usize) -> usize {
        (self.constants as usize).pow(k as u32)
    }

    /// How many ground atoms the first `predicates` predicates have.
    fn atoms_before(&self, predicates: usize) -> usize {
        self.arities[..predicates].iter().map(|arity| self.power(*arity as usize)).sum()
    }

    /// How many ground atoms: A.
    pub fn atoms(&self) -> usize {
        self.atoms_before(self.arities.len())
    }

    /// The sum of n times c to the power v over the clauses.
    pub fn sum(&self) -> usize {
        self.clauses.iter().map(|clause| clause.conditions.len() * self.power(clause.variables())).sum()
    }

    /// The number of a ground atom.
    pub fn number(&self, atom: &Atom) -> usize {
        let among = atom.arguments.iter().fold(0, |number, argument| number * self.constants as usize + *argument as usize);
        self.atoms_before(atom.predicate as usize) + among
    }

    /// The ground atoms in the order of their numbers.
    pub fn ground_atoms(&self) -> Vec<Atom> {
        let of_predicate = |(predicate, arity): (usize, &u8)| {
            let atom = move |arguments| Atom { predicate: predicate as u8, arguments };
            self.all_values(*arity as usize).map(atom)
        };
        self.arities.iter().enumerate().flat_map(of_predicate).collect()
    }

    /// Each way to choose so many constants, the first one slowest.
    pub fn all_values(&self, many: usize) -> impl Iterator<Item = Vec<u8>> {
        let constants = self.constants as usize;
        let digit = move |index: usize, place: usize| (index / constants.pow((many - 1 - place) as u32) % constants) as u8;
        (0..self.power(many)).map(move |index| (0..many).map(|place| digit(index, place)).collect())
    }

    /// How much of what a ticket can have is used.
    pub fn used(&self) -> String {
        format!("{} of 64 rules, {} of 1024 atoms, {} of 16384 as the sum", self.clauses.len(), self.atoms(), self.sum())
    }

    /// Whether more than nine tenths of one of these are used.
    pub fn is_tight(&self) -> bool {
        [(self.clauses.len(), 64), (self.atoms(), 1024), (self.sum(), 16384)].iter().any(|(used, most)| 10 * used > 9 * most)
    }

    /// The ticket with another limit.
    pub fn with_limit(&self, limit: u32) -> Ticket {
        Ticket { limit, ..self.clone() }
    }

    pub fn text(&self) -> Vec<u8> {
        let heading = [&[0x01, 0x01, self.constants, self.arities.len() as u8], &self.limit.to_be_bytes()[..]].concat();
        let arities = self.arities.iter().map(|arity| vec![0x02, *arity]);
        let clauses = self.clauses.iter().map(Clause::frame);
        let closing = vec![0xFF, self.clauses.len() as u8];
        let frames = std::iter::once(heading).chain(arities).chain(clauses).chain([closing]);
        frames.map(|frame| hex(&frame) + "\n").collect::<String>().into_bytes()
    }
}
