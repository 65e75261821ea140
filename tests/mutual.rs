//! Random tickets of rules that depend on each other, over few atoms.

use crate::random::Random;
use crate::reference::{Atom, Clause, Ticket};

/// Atoms in layers, at most so many. What is known, the first predicate, gives one of any atoms, several times over: so a split can be asked for at an
/// early stage, and one that stands before it at a later stage. Clauses are in any order.
pub fn drawn(random: &mut Random, most_layers: usize) -> Ticket {
    let constants = random.pick(&[0, 0, 1, 2]);
    let arity = (constants > 0) as usize;
    let (layers, each) = (random.within(2, most_layers), random.within(2, 3));
    let all: Vec<Atom> = (0..=layers * each).map(|predicate| Atom::new(predicate as u8, &[0x80][..arity])).collect();
    let (known, atoms) = all.split_first().expect("what is known");
    let mut clauses: Vec<Clause> = (0..constants.max(1)).map(|k| Clause::new(&[], &[Atom::new(0, &[k][..arity])])).collect();
    clauses.extend((0..atoms.len()).flat_map(|i| layered(random, &all, i, i / each * each)).collect::<Vec<_>>());
    clauses.extend((0..random.within(2, 5)).map(|_| Clause::new(&[known.clone()], &some(random, atoms))));
    clauses.extend((0..random.below(3)).map(|_| Clause::new(&[any(random, atoms), any(random, atoms)], &[])));
    random.shuffle(&mut clauses);
    Ticket { constants, limit: [0; 4], arities: vec![arity as u8; all.len()], clauses }
}

/// The clauses of an atom that has so many before its layer: it gives some of these, of which some give it back; in the first layer it is denied. At times it
/// does so only beside what is known, or beside any.
fn layered(random: &mut Random, all: &[Atom], i: usize, before: usize) -> Vec<Clause> {
    let atom = &all[1 + i];
    let lower = if before == 0 { Vec::new() } else { some(random, &all[1..1 + before]) };
    let beside = random.pick(&[0, 0, 0, 0, 1, all.len()]);
    let beside: Vec<Atom> = (0..beside.min(1)).map(|_| any(random, &all[..beside])).collect();
    let mut clauses = vec![Clause::new(&[&beside[..], &[atom.clone()]].concat(), &lower)];
    clauses.extend(lower.iter().filter(|_| random.once_in(3)).map(|other| Clause::new(&[other.clone()], &[atom.clone()])));
    clauses
}

fn any(random: &mut Random, atoms: &[Atom]) -> Atom {
    atoms[random.below(atoms.len())].clone()
}

/// Two or three.
fn some(random: &mut Random, atoms: &[Atom]) -> Vec<Atom> {
    (0..random.pick(&[2, 2, 3])).map(|_| any(random, atoms)).collect()
}
