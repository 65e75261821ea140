//! Paths of hundreds of entries.

use crate::large;
use crate::random::Random;
use crate::reference::Ticket;
use crate::tickets;

/// Each entry at once; each after three that close; and two whose columns are drawn.
pub const KINDS: [fn(&mut Random) -> Ticket; 4] =
    [|random| tickets::deep(constants(random), 2, 0), |random| tickets::late(constants(random), 0), large::FAMILIES[2].draw, large::FAMILIES[2].draw];

pub fn draw(random: &mut Random, i: usize) -> Ticket {
    KINDS[i](random)
}

fn constants(random: &mut Random) -> u8 {
    random.within(20, 31) as u8
}
