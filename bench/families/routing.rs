//! Channels of six to twelve nets: which meet is drawn, and which are above which.

use super::choice::pairs;
use crate::puzzles::channel;
use crate::random::Random;
use crate::reference::Ticket;

pub fn draw(random: &mut Random, _: usize) -> Ticket {
    let nets = random.within(6, 12);
    let (meeting, ordered) = (random.within(nets, 2 * nets), random.within(nets / 2, nets));
    let meeting = pairs(random, nets as u8, meeting);
    let ordered = pairs(random, nets as u8, ordered);
    channel::with(nets as u8, &meeting, &ordered)
}
