//! Sessions that no call has left: one with something changed, in each of its fields, and any numbers at all.
#![allow(dead_code)] // each program uses its own part

use crate::library::Session;
use crate::random::Random;
use crate::session::{bytes, of_bytes, ROOM};

/// What is changed.
#[derive(Clone, Copy, Debug, PartialEq, Eq, PartialOrd, Ord)]
pub enum Change {
    Count,
    Length,
    Verdict,
    Next,
    PathAtom,
    PathNext,
    AtomPast,
    NextPast,
    Deepest,
    Several,
    All,
}

pub const CHANGES: [Change; 11] = [
    Change::Count,
    Change::Length,
    Change::Verdict,
    Change::Next,
    Change::PathAtom,
    Change::PathNext,
    Change::AtomPast,
    Change::NextPast,
    Change::Deepest,
    Change::Several,
    Change::All,
];

/// Those of one field.
pub const FIELDS: &[Change] = CHANGES.split_at(9).0;

/// The session with this changed; as it is where it has no such part. It is lent with a ticket of so many atoms.
pub fn changed(random: &mut Random, session: &Session, change: Change, atoms: u32) -> Session {
    let mut other = *session;
    let length = (session.length as usize).min(ROOM);
    let (inside, past) = (random.below(length.max(1)), length + random.below((ROOM - length).max(1)));
    match change {
        Change::Count => other.count = any_count(random, session.count),
        Change::Length => other.length = any_length(random, session.length),
        Change::Verdict => other.verdict = random.pick(&[0, 1, 2, 2, 3, 4, 0x80, 0xFF]),
        Change::Next => other.next = any_next(random, session.next),
        Change::PathAtom if length > 0 => other.atoms[inside] = any_atom(random, session.atoms[inside]),
        Change::PathNext if length > 0 => other.nexts[inside] = any_next(random, session.nexts[inside]),
        Change::AtomPast if length < ROOM => other.atoms[past] = random.next() as u16,
        Change::NextPast if length < ROOM => other.nexts[past] = random.byte(),
        Change::Deepest => other.deepest = any_deepest(random, session, atoms),
        Change::Several => {
            for _ in 0..random.within(2, 4) {
                let field = random.pick(FIELDS);
                other = changed(random, &other, field, atoms);
            }
        }
        Change::All => other = any_numbers(random),
        _ => {}
    }
    other
}

fn any_count(random: &mut Random, count: u32) -> u32 {
    let any = random.next() as u32;
    random.pick(&[0, count.wrapping_add(1), count.wrapping_sub(1), u32::MAX - 1, u32::MAX, any])
}

fn any_length(random: &mut Random, length: u16) -> u16 {
    let shorter = random.below(length.max(1) as usize) as u16;
    random.pick(&[0, shorter, length.wrapping_sub(1), length.wrapping_add(1), length ^ 0x100, 1023, 1024, 1025, 0xFFFF])
}

fn any_next(random: &mut Random, next: u8) -> u8 {
    random.pick(&[0, 1, 2, 3, 4, 5, next.wrapping_add(1), next.wrapping_sub(1), next ^ 0x80, 0xFF])
}

/// Also one with the same low byte.
fn any_atom(random: &mut Random, atom: u16) -> u16 {
    let any = random.below(ROOM) as u16;
    random.pick(&[0, 1, atom.wrapping_add(1), atom.wrapping_sub(1), atom ^ 0x100, atom ^ 0x8000, any, 0xFFFF])
}

/// Around the path's length and the number of atoms, between them, and elsewhere; also one with the same low bytes.
fn any_deepest(random: &mut Random, session: &Session, atoms: u32) -> u32 {
    let (length, any) = (session.length as u32, random.next() as u32);
    let between = length.saturating_add(random.below(atoms.saturating_sub(length) as usize + 1) as u32);
    random.pick(&[length.wrapping_sub(1), length, length + 1, between, atoms.wrapping_sub(1), atoms, atoms + 1, session.deepest ^ 0x10000, any, u32::MAX])
}

/// Small numbers, or any bytes.
fn any_numbers(random: &mut Random) -> Session {
    let mut all = bytes(&Session::EMPTY);
    random.fill(&mut all);
    let mut session = of_bytes(&all);
    if random.once_in(2) {
        session.length = random.below(4) as u16;
        session.verdict = random.below(3) as u8;
        session.next = random.below(4) as u8;
        session.atoms[..3].fill_with(|| random.below(8) as u16);
        session.nexts[..3].fill_with(|| random.below(4) as u8);
        session.deepest = session.length as u32 + random.below(3) as u32;
    }
    session
}

/// Any session's bytes, by those of one, and lent with a ticket of so many atoms.
pub fn any(random: &mut Random, held: &[u8], atoms: u32) -> Vec<u8> {
    let change = random.pick(&CHANGES);
    bytes(&changed(random, &of_bytes(held), change, atoms))
}

/// A further limit, of few entries or up to so many; at times one with which the session's count passes what it may be, or nearly.
pub fn further(random: &mut Random, held: &[u8], most: u32) -> u32 {
    let left = u32::MAX - of_bytes(held).count;
    if random.once_in(8) && left < u32::MAX {
        let any = left + 1 + (random.next() as u32) % (u32::MAX - left);
        return random.pick(&[left + 1, any, u32::MAX]);
    }
    random.pick(&[0, 1, 2, 3, 5, most]).min(if random.once_in(2) { left } else { most })
}
