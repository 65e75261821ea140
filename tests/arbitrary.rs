//! Arbitrary contents of a host's buffers: what a ticket gives, that with something changed, and any bytes at all.
#![allow(dead_code)] // each program uses its own part

use crate::mangle::mangle;
use crate::random::Random;
use crate::reference::{self, clause_frame, Ticket, ANSWER, SLIP, TABLE};
use crate::slip::{filled, ROOM};
use crate::stages::Staged;
use crate::tickets;
use crate::walk::{walk, Engine, Relevancy, Verdict};

/// Longer than any text that is accepted.
const LONGEST_TEXT: usize = 6000;

/// A ticket of any size, most of them small, mostly with a limit that is soon reached.
pub fn ticket(random: &mut Random) -> Ticket {
    let ticket = match random.below(64) {
        0..=1 => tickets::ticket(random),
        2 => tickets::full(random),
        3..=7 => tickets::crowded(random),
        _ => tickets::to_walk(random),
    };
    let limit: u32 = random.pick(&[0, 1, 2, 3, 5, 8, u32::MAX, u32::MAX]);
    Ticket { limit: limit.to_be_bytes(), ..ticket }
}

/// The ticket's limit; where its walk, also the staged one, is longer than this many entries, or than fewer where the ticket is large, one that cuts it.
pub fn quick_limit(ticket: &Ticket, most: u64) -> u32 {
    let limit = u32::from_be_bytes(ticket.limit);
    let marks: u64 = ticket.clauses.iter().map(|clause| ticket.marks(clause)).sum();
    let cut = (1 + 200 * most / (1 + marks)).min(most) as u32;
    let engines: [&dyn Engine; 2] = [&Relevancy::new(ticket), &Staged::new(ticket)];
    let is_long = |engine: &&dyn Engine| walk(*engine, cut, &mut |_, _| {}).verdict == Verdict::Spent;
    if limit > cut && engines.iter().any(is_long) { cut } else { limit }
}

/// A ticket's text, whole or changed, also of a ticket near a limit; or any bytes.
pub fn text(random: &mut Random) -> Vec<u8> {
    let mut ticket = ticket(random);
    match random.below(16) {
        0..=6 => reference::print(&ticket),
        7..=9 => mangled(random, reference::print(&ticket)),
        10..=11 => {
            tickets::spoil(random, &mut ticket);
            reference::print(&ticket)
        }
        12 => reference::print(&near_a_limit(random)),
        13 => joined(random, &reference::print(&ticket)),
        14 => (0..random.below(LONGEST_TEXT)).map(|_| random.pick(b"0000123FF8\n")).collect(),
        _ => {
            let len = random.below(LONGEST_TEXT);
            bytes(random, len)
        }
    }
}

fn near_a_limit(random: &mut Random) -> Ticket {
    if random.once_in(2) { tickets::atoms_near_limit(random) } else { tickets::marks_near_limit(random) }
}

pub fn mangled(random: &mut Random, mut text: Vec<u8>) -> Vec<u8> {
    for _ in 0..random.pick(&[1, 1, 1, 2, 3, 8]) {
        mangle(random, &mut text);
    }
    text
}

/// The beginning of a text, and the end of another ticket's.
fn joined(random: &mut Random, text: &[u8]) -> Vec<u8> {
    let other = reference::print(&ticket(random));
    [&text[..random.below(text.len())], &other[random.below(other.len())..]].concat()
}

/// A table like this one but for something changed, that of another ticket, perhaps of one that no text gives; or any bytes.
pub fn table(random: &mut Random, table: &[u8]) -> Vec<u8> {
    let mut other = ticket(random);
    match random.below(16) {
        0..=6 => tickets::damaged(random, table),
        7..=9 => reference::encode(&other),
        10..=11 => {
            tickets::spoil(random, &mut other);
            reference::encode(&other)
        }
        12..=13 => {
            let at = random.below(TABLE);
            [&table[..at], &reference::encode(&other)[at..]].concat()
        }
        _ => bytes(random, TABLE),
    }
}

/// An answer like this one but for a byte, a set of atoms; or any bytes.
pub fn answer(random: &mut Random, answer: &[u8]) -> Vec<u8> {
    let mut answer = answer.to_vec();
    let below = random.pick(&[24, ANSWER]);
    let at = random.below(below);
    match random.below(8) {
        0..=2 => answer[at] ^= 1,
        3 => answer[at] = random.byte(),
        4..=6 => answer.fill_with(|| random.below(2) as u8),
        _ => random.fill(&mut answer),
    }
    answer
}

/// A clause frame for this ticket, at times for another: whole, with something changed, lengthened, cut off; or any bytes.
pub fn frame(random: &mut Random, ticket: Option<&Ticket>) -> Vec<u8> {
    let own = ticket.filter(|_| !random.once_in(16)).cloned();
    let drawn = own.unwrap_or_else(|| self::ticket(random));
    let mut frame = clause_frame(&tickets::next_clause(random, &drawn));
    match random.below(16) {
        0..=7 => {}
        8..=10 => change_byte(random, &mut frame),
        11 => frame.truncate(random.below(frame.len() + 1)),
        12..=13 => lengthen(random, &mut frame),
        14 => {
            change_byte(random, &mut frame);
            lengthen(random, &mut frame);
        }
        _ => {
            let len = random.below(300);
            frame = bytes(random, len);
        }
    }
    frame
}

/// A byte set to one at which some rule turns.
fn change_byte(random: &mut Random, frame: &mut [u8]) {
    let at = random.below(frame.len());
    frame[at] = random.pick(&[0x00, 0x01, 0x03, 0x04, 0x05, 0x1F, 0x20, 0x7F, 0x80, 0x81, 0x82, 0x83, 0x81, 0x82, 0x83, 0x84, 0xFF]);
}

/// Bytes after a frame: a few, or up to a length at which a line or a byte ends; more of them at times.
fn lengthen(random: &mut Random, frame: &mut Vec<u8>) {
    let few = frame.len() + random.within(1, 3);
    let len = random.pick(&[few, few, 35, 36, 37, 70, 255, 256, 257, 1000]).max(few);
    while frame.len() < len {
        frame.push(random.pick(&[0x00, 0x00, 0x03, 0x80, 0xFF]));
    }
}

/// A slip like this one but for something changed, or one for this ticket that nobody has offered; or any bytes.
pub fn slip(random: &mut Random, slip: &[u8], ticket: Option<&Ticket>) -> Vec<u8> {
    let mut slip = slip.to_vec();
    let at = random.below(SLIP);
    match random.below(8) {
        0 => slip[0] = slip[0].wrapping_add(random.pick(&[1, 255])),
        1 => slip[1] = random.pick(&[0, 1, 3, 34, 35, 36, 37, 64, 128, 255]),
        2 => slip[at] = random.byte(),
        3..=6 => {
            let mut frame = frame(random, ticket);
            frame.truncate(ROOM);
            slip = filled(ticket.map_or(0, |ticket| ticket.clauses.len() as u8), &frame);
        }
        _ => slip = bytes(random, SLIP),
    }
    slip
}

/// An instance by its clause and four values, mostly one of the ticket's; or numbers near the first that it lacks, or far.
pub fn instance(random: &mut Random, ticket: Option<&Ticket>) -> (u32, [u32; 4]) {
    let (clauses, constants) = ticket.map_or((64, 32), |ticket| (ticket.clauses.len(), ticket.constants as usize));
    let clause = number(random, clauses);
    (clause, [constants; 4].map(|constants| number(random, constants)))
}

/// A number below `many` in seven of eight cases, where there is one.
fn number(random: &mut Random, many: usize) -> u32 {
    let below = random.below(many.max(1)) as u32;
    let many = many as u32;
    if random.below(8) > 0 { below } else { random.pick(&[many, many + 1, many + 31, 255, 256, 256 + below, 0x1_0000 + below, 0x8000_0000, u32::MAX]) }
}

/// Open facts for this ticket, mostly a few atoms of it, each once: in one of four cases with a number too many, of no atom, or again, or with many more.
pub fn facts(random: &mut Random, ticket: Option<&Ticket>) -> Vec<u32> {
    let (atoms, clauses) = ticket.map_or((6, 8), |ticket| (ticket.atoms() as usize, ticket.clauses.len()));
    let mut facts: Vec<u32> = Vec::new();
    for _ in 0..random.pick(&[0, 1, 1, 2, 2, 3, 3, 4, 6, 16, 24]).min(atoms) {
        let fact = random.below(atoms) as u32;
        if facts.len() < 16 && !facts.contains(&fact) {
            facts.push(fact);
        }
    }
    if random.below(4) > 0 {
        return facts;
    }
    let at = random.below(facts.len() + 1);
    let no_atom = number_from(random, atoms);
    match random.below(5) {
        0 | 1 => facts.insert(at, no_atom),
        2 if !facts.is_empty() => facts.insert(at, facts[random.below(facts.len())]),
        3 => facts.resize_with(17, || random.below(atoms.max(1)) as u32),
        _ => facts.resize_with((65 - clauses.min(64) + random.below(20)).max(17), || random.below(atoms.max(1)) as u32),
    }
    facts
}

/// A number from `many` on; of some the last byte or two are below it.
fn number_from(random: &mut Random, many: usize) -> u32 {
    let (below, many) = (random.below(many.max(1)) as u32, many as u32);
    random.pick(&[many, many, many, many + 1, many + 100, 0x1_0000 + below, 0x0100_0000 + below, 0x8000_0000 + below, u32::MAX])
}

/// All the same, or all at random.
pub fn bytes(random: &mut Random, len: usize) -> Vec<u8> {
    let mut bytes = vec![random.pick(&[0x00, 0x01, 0x0A, 0xFF]); len];
    if random.below(4) > 0 {
        random.fill(&mut bytes);
    }
    bytes
}
