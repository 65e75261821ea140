//! Random tickets near each limit of document 01.

use crate::large;
use crate::random::Random;
use crate::reference::Ticket;
use crate::tickets;

/// A near 1,024, with clauses of each kind; 64 clauses; a long chain; the longest text; A within one or two of its limit; the
/// sum of conditions too.
pub const KINDS: [fn(&mut Random) -> Ticket; 6] =
    [large::FAMILIES[0].draw, large::FAMILIES[1].draw, large::FAMILIES[3].draw, tickets::full, tickets::atoms_near_limit, tickets::marks_near_limit];

pub fn draw(random: &mut Random, i: usize) -> Ticket {
    KINDS[i](random)
}
