//! Tickets that are fitted in about a microsecond: few atoms, clauses and entries.

use crate::random::Random;
use crate::reference::Ticket;
use crate::tickets;

pub fn draw(random: &mut Random, _: usize) -> Ticket {
    let constants = random.within(1, 3) as u8;
    let arities = (0..random.within(2, 4)).map(|_| random.pick(&[0, 1, 1, 2])).collect();
    let mut ticket = Ticket { constants, limit: [0; 4], arities, clauses: vec![] };
    for _ in 0..random.within(3, 8) {
        let kind = random.pick(&[(0, 1, 0), (0, 2, 0), (0, 3, 0), (1, 2, 1), (1, 1, 1), (1, 0, 0), (2, 0, 1), (2, 0, 1)]);
        tickets::add_clause(random, &mut ticket, kind, constants);
    }
    ticket
}
