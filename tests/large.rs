//! Large random tickets, in four families by what is large about them.
#![allow(dead_code)] // each program uses its own part

use crate::random::Random;
use crate::reference::{Atom, Clause, Ticket};
use crate::sizes::Sizes;
use crate::tickets;

pub struct Family {
    pub name: &'static str,
    pub draw: fn(&mut Random) -> Ticket,
    /// what each of its tickets must have
    pub aim: fn(&Sizes) -> bool,
    /// Walks are cut after this many entries.
    pub cut: u32,
}

pub const FAMILIES: [Family; 4] = [
    Family { name: "A near 1,024", draw: wide, aim: |sizes| sizes.atoms >= 1000, cut: 400 },
    Family { name: "64 clauses", draw: full, aim: |sizes| sizes.clauses == 64, cut: 1000 },
    Family { name: "deep paths", draw: deep, aim: |sizes| sizes.longest_path >= 300, cut: 2900 },
    Family { name: "long chains", draw: chain, aim: |sizes| sizes.steps >= 300, cut: 40 },
];

const X: u8 = 0x80;
const Y: u8 = 0x81;

/// A from 1,000 on, with clauses of each kind. Their constants are few, so that they meet; their variables reach all.
fn wide(random: &mut Random) -> Ticket {
    let atoms = random.within(1000, 1024) as u64;
    let mut ticket = tickets::with_atoms(random, atoms);
    for _ in 0..random.within(20, 60) {
        let (n, m, variables) = match random.below(8) {
            0..=2 => (0, random.pick(&[2, 2, 3, 4]), 0),
            3 => (random.within(1, 2), random.pick(&[1, 2, 3]), 1),
            _ => (random.pick(&[1, 2, 2, 3]), 0, random.pick(&[0, 1, 1, 2])),
        };
        tickets::add_clause(random, &mut ticket, (n, m, variables), 3);
    }
    ticket
}

/// A crowded ticket, filled up to 64 clauses by chains, splits and denials with conditions.
fn full(random: &mut Random) -> Ticket {
    let mut ticket = tickets::crowded(random);
    while ticket.clauses.len() < 64 {
        let kind = random.pick(&[(1, 1, 1), (2, 1, 1), (1, 2, 1), (2, 3, 1), (3, 0, 2), (4, 0, 0)]);
        tickets::add_clause(random, &mut ticket, kind, 4);
    }
    random.shuffle(&mut ticket.clauses);
    ticket
}

/// A path goes through each atom of a predicate of arity 2, column by column. Its end is open, or closed by its last
/// atom; then the walk turns to the splits' further alternatives: the next atom, or one denied. Where the first one stands
/// there again, or one denied twice, it is passed over.
fn deep(random: &mut Random) -> Ticket {
    let constants = random.within(18, 31) as u8;
    let columns = shuffled(random, constants);
    let (denied, never) = (Atom::new(1, &[]), Atom::new(2, &[]));
    let (m, kind) = (random.pick(&[2, 2, 3]), random.below(4));
    let split = |conditions: &[Atom], first: &Atom, next: &Atom| {
        let further = [first, next, &denied, &denied][kind];
        Clause::new(conditions, &[vec![first.clone()], vec![further.clone(); m - 1]].concat())
    };
    let rows: Vec<Atom> = (0..constants).map(|x| Atom::new(0, &[x, columns[0]])).collect();
    let rests: Vec<Atom> = columns.iter().map(|y| Atom::new(0, &[X, *y])).collect();
    let mut clauses: Vec<Clause> = with_next(&rows).map(|(_, row, next)| split(&[], row, next)).collect();
    let columns_but_first = with_next(&rests).skip(1);
    clauses.extend(columns_but_first.map(|(i, rest, next)| split(&[rests[random.below(i)].clone()], rest, next)));
    let last = Atom::new(0, &[constants - 1, columns[columns.len() - 1]]);
    let end = if random.once_in(2) { never } else { last };
    clauses.push(Clause::new(&[Atom::new(0, &[X, Y]), end], &[]));
    clauses.push(Clause::new(&[denied], &[]));
    Ticket { constants, limit: [0; 4], arities: vec![2, 0, 0], clauses }
}

/// Each atom with its place and the one after it; the last one with itself.
fn with_next(atoms: &[Atom]) -> impl Iterator<Item = (usize, &Atom, &Atom)> {
    atoms.iter().enumerate().map(|(i, atom)| (i, atom, atoms.get(i + 1).unwrap_or(atom)))
}

fn shuffled(random: &mut Random, constants: u8) -> Vec<u8> {
    let mut all: Vec<u8> = (0..constants).collect();
    random.shuffle(&mut all);
    all
}

/// A chain goes down through the atoms of a predicate of arity 2, one by one, from its top or from either of two high
/// places, in any order of the clauses; at its bottom there is a search over two predicates of arity 1.
fn chain(random: &mut Random) -> Ticket {
    let constants = random.within(18, 26) as u8;
    let names = shuffled(random, constants);
    let at = |i: usize, j: usize| Atom::new(0, &[names[i], names[j]]);
    let column = |j: usize| Atom::new(0, &[X, names[j]]);
    let last = names.len() - 1;
    let mut clauses: Vec<Clause> = (1..=last).map(|i| Clause::new(&[at(i, 0)], &[at(i - 1, last)])).collect();
    for j in 1..=last {
        let also = random.once_in(3).then(|| column(random.within(j, last)));
        clauses.push(Clause { conditions: [column(j)].into_iter().chain(also).collect(), alternatives: vec![column(j - 1)] });
    }
    let another = at(random.within(17, last), last);
    let starts = [at(last, last), another];
    clauses.push(Clause::new(&[], &starts[..random.within(1, 2)]));
    search_below(random, &mut clauses, at(0, 0));
    if random.once_in(2) {
        random.shuffle(&mut clauses);
    }
    Ticket { constants, limit: [0; 4], arities: vec![2, 1, 1, 0], clauses }
}

/// Splits and denials under a condition, up to 64 clauses; sometimes it is denied itself. Denials that never come about
/// want each atom.
fn search_below(random: &mut Random, clauses: &mut Vec<Clause>, condition: Atom) {
    let never = Atom::new(3, &[]);
    for atom in [Atom::new(0, &[X, Y]), Atom::new(1, &[X]), Atom::new(2, &[X])] {
        clauses.push(Clause::new(&[atom, never.clone()], &[]));
    }
    if random.once_in(5) {
        clauses.push(Clause::new(&[condition.clone()], &[]));
    }
    let any = |random: &mut Random| Atom::new(random.pick(&[1, 2]), &[random.below(3) as u8]);
    for _ in 0..random.within(4, 64 - clauses.len()) {
        let splits = random.once_in(2);
        let atoms: Vec<Atom> = (0..if splits { random.within(2, 3) } else { random.within(1, 2) }).map(|_| any(random)).collect();
        clauses.push(if splits { Clause::new(&[condition.clone()], &atoms) } else { Clause::new(&atoms, &[]) });
    }
}
