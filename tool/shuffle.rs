//! A ticket shuffled, as document 02 has it (U13): its clauses in another order of lines, and its constants renumbered one to one.

use crate::random::Random;
use crate::ticket::{Atom, Clause, Ticket, FIRST_VARIABLE};

/// What is drawn by a number: which clause stands at each line, and the new number of each constant.
pub struct Shuffle {
    pub order: Vec<usize>,
    pub numbers: Vec<u8>,
}

impl Shuffle {
    pub fn drawn(ticket: &Ticket, seed: u32) -> Shuffle {
        let mut random = Random::new(seed as u64);
        let mut shuffle = Shuffle { order: (0..ticket.clauses.len()).collect(), numbers: (0..ticket.constants).collect() };
        random.shuffle(&mut shuffle.order);
        random.shuffle(&mut shuffle.numbers);
        shuffle
    }

    pub fn of(&self, ticket: &Ticket) -> Ticket {
        Ticket { clauses: self.order.iter().map(|i| self.clause(&ticket.clauses[*i])).collect(), ..ticket.clone() }
    }

    fn clause(&self, clause: &Clause) -> Clause {
        let [conditions, alternatives] = [&clause.conditions, &clause.alternatives].map(|atoms| atoms.iter().map(|atom| self.atom(atom)).collect());
        Clause { conditions, alternatives }
    }

    /// Variables stay.
    fn atom(&self, atom: &Atom) -> Atom {
        let number = |argument: &u8| if *argument < FIRST_VARIABLE { self.numbers[*argument as usize] } else { *argument };
        Atom { predicate: atom.predicate, arguments: atom.arguments.iter().map(number).collect() }
    }
}
