//! Families of tickets that are drawn by seed, and not chosen: what is drawn are sizes, graphs, hints and the order of
//! clauses.
#![allow(dead_code)] // each program uses its own part

mod choice;
mod closure;
mod colouring;
mod deep;
mod latin;
mod limits;
mod orders;
mod placement;
mod routing;
mod small;
mod unwanted;
mod wide;

use crate::puzzles::Puzzle;
use crate::random::Random;
use crate::reference::{self, Ticket};

/// What a run draws from where no other seed is asked for.
pub const SEED: u64 = 20;

/// The entries of a walk, each with all conditions of all instances, are about as many as this, so that counting its
/// instructions takes seconds.
const WORK: u64 = 12_000_000;
const LEAST_ENTRIES: u64 = 300;
const MOST_ENTRIES: u64 = 3_000;

struct Family {
    name: &'static str,
    many: usize,
    /// by how many were drawn before
    draw: fn(&mut Random, usize) -> Ticket,
}

const fn family(name: &'static str, many: usize, draw: fn(&mut Random, usize) -> Ticket) -> Family {
    Family { name, many, draw }
}

const ALL: [Family; 11] = [
    family("placements", 5, placement::draw),
    family("routing", 5, routing::draw),
    family("colourings", 5, colouring::draw),
    family("acyclic orders", 5, orders::draw),
    family("closure with choices", 5, closure::draw),
    family("hinted Latin squares", 5, latin::draw),
    family("near the limits", limits::KINDS.len(), limits::draw),
    family("wide choices", 5, wide::draw),
    family("drawn unwanted rules", 4, unwanted::draw),
    family("drawn deep paths", deep::KINDS.len(), deep::draw),
    family("one microsecond", 6, small::draw),
];

/// The tickets of a seed. The members of a family follow one another.
pub fn drawn(seed: u64) -> Vec<Puzzle> {
    ALL.iter().zip(0..).flat_map(|(family, i)| members(family, seed, i)).collect()
}

/// The one of them with this name.
pub fn named(seed: u64, name: &str) -> Option<Puzzle> {
    let is_in = |(family, _): &(&Family, u64)| name.starts_with(family.name);
    ALL.iter().zip(0..).filter(is_in).flat_map(|(family, i)| members(family, seed, i)).find(|puzzle| puzzle.name == name)
}

fn members(family: &Family, seed: u64, i: u64) -> Vec<Puzzle> {
    let mut random = Random::new(seed.wrapping_mul(100).wrapping_add(i));
    let member = |k: usize| Puzzle { family: family.name, name: format!("{} {seed}.{k}", family.name), ticket: limited(accepted(family, k, &mut random)) };
    (0..family.many).map(member).collect()
}

/// The next one that is within the limits of document 01.
fn accepted(family: &Family, k: usize, random: &mut Random) -> Ticket {
    loop {
        let ticket = (family.draw)(random, k);
        if reference::read(&reference::print(&ticket)).is_ok() {
            return ticket;
        }
    }
}

fn limited(ticket: Ticket) -> Ticket {
    let each: u64 = ticket.clauses.iter().map(|clause| ticket.marks(clause) + 1).sum();
    let entries = (WORK / each.max(1)).clamp(LEAST_ENTRIES, MOST_ENTRIES);
    Ticket { limit: (entries as u32).to_be_bytes(), ..ticket }
}
