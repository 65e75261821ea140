//! Random tickets of all sizes. Most are valid; those around a limit fall on either side of it.
#![allow(dead_code)] // each program uses its own part

use crate::random::Random;
use crate::reference::{Atom, Clause, Ticket, TABLE};

pub fn ticket(random: &mut Random) -> Ticket {
    match random.below(32) {
        0..=15 => small(random),
        16..=24 => medium(random),
        25 => full(random),
        26..=27 => many_clauses(random),
        28..=29 => atoms_near_limit(random),
        _ => marks_near_limit(random),
    }
}

fn small(random: &mut Random) -> Ticket {
    let constants = random.within(0, 4);
    let predicates = random.within(1, 4);
    let clauses = random.below(6);
    with_clauses(random, constants, predicates, clauses)
}

fn medium(random: &mut Random) -> Ticket {
    let constants = random.within(0, 32);
    let predicates = random.within(1, 32);
    let clauses = random.below(30);
    with_clauses(random, constants, predicates, clauses)
}

/// 64 clauses, or one too many.
fn many_clauses(random: &mut Random) -> Ticket {
    let constants = random.within(0, 5);
    let predicates = random.within(1, 32);
    let clauses = random.within(63, 65);
    with_clauses(random, constants, predicates, clauses)
}

/// The longest text there is: 32 predicates, 64 clauses, each atom with three arguments.
pub fn full(random: &mut Random) -> Ticket {
    let constants = random.within(1, 3) as u8; // with three variables to a clause these stay within the limits
    let mut ticket = empty(random, constants, vec![3; 32]);
    while ticket.clauses.len() < 64 {
        let clause = clause(random, &ticket, 4, 4, 3);
        ticket.clauses.push(clause);
    }
    ticket
}

/// A small ticket whose walk is likely to make entries: facts, chains, splits and denials over few atoms. One in
/// three has little but splits and denials, many of them, and a long walk; one in three names alternatives again; one in forty is crowded,
/// and one in ten has alternatives that coincide.
pub fn to_walk(random: &mut Random) -> Ticket {
    if random.once_in(40) {
        return crowded(random);
    }
    if random.once_in(10) {
        return coinciding(random);
    }
    let constants = random.pick(&[0, 1, 2, 2, 3, 3, 4, 5]);
    let mut ticket = empty(random, constants, Vec::new());
    for _ in 0..random.within(2, 8) {
        ticket.arities.push(random.pick(&[0, 1, 1, 1, 1, 2]));
        if ticket.atoms() > 24 {
            *ticket.arities.last_mut().unwrap() = 0;
        }
    }
    let long = random.once_in(3);
    let chains = if long { 0 } else { random.below(6) };
    let variables = if long { random.pick(&[0, 0, 1]) } else { random.below(4) as u8 };
    let clauses = if long { random.within(12, 40) } else { random.within(2, 24) };
    for _ in 0..clauses {
        let (n, m) = match random.below(12 + chains) {
            0 => (random.pick(&[0, 0, 1, 2]) + long as usize, 1),
            1..=5 if long => (random.pick(&[0, 0, 0, 1]), random.pick(&[2, 2, 3, 3, 4])),
            1..=5 => (random.pick(&[0, 0, 0, 1, 1, 2, 3, 4]), random.pick(&[2, 2, 2, 3, 4])),
            6..=11 => (random.pick(&[1, 2, 2, 2, 2, 3, 3, 4]) + long as usize, 0),
            _ => (random.within(1, 3), 1),
        };
        let clause = clause(random, &ticket, n.min(4), m, variables);
        ticket.clauses.push(clause);
    }
    if random.once_in(3) {
        let constants = ticket.constants;
        ticket.clauses.iter_mut().for_each(|clause| name_again(random, constants, clause));
    }
    ticket
}

/// Puts alternatives into a clause, up to four, that stand there already; some of them changed in an argument, so that they are equal
/// to an earlier one in some instances only. A clause with one alternative becomes one that splits.
fn name_again(random: &mut Random, constants: u8, clause: &mut Clause) {
    let variables = clause.variables().len() as u8;
    while !clause.alternatives.is_empty() && clause.alternatives.len() < 4 && random.once_in(2) {
        let mut again = clause.alternatives[random.below(clause.alternatives.len())].clone();
        if variables + constants > 0 && !again.arguments.is_empty() && random.once_in(2) {
            let (at, choice) = (random.below(again.arguments.len()), random.below((variables + constants) as usize) as u8);
            again.arguments[at] = if choice < variables { 0x80 + choice } else { choice - variables };
        }
        clause.alternatives.insert(random.below(clause.alternatives.len() + 1), again);
    }
}

/// A ticket whose splits have alternatives of one predicate that are equal in some instances: constants that are facts are put for their
/// variables. Denials that never come about want each atom; others close.
fn coinciding(random: &mut Random) -> Ticket {
    let constants = random.within(2, 4) as u8;
    let mut ticket = empty(random, constants, vec![1, 1, 2, 0]);
    let (variable, another, never) = (0x80, 0x81, Atom::new(3, &[]));
    ticket.clauses.push(Clause::new(&[Atom::new(1, &[variable]), never.clone()], &[]));
    ticket.clauses.push(Clause::new(&[Atom::new(2, &[variable, another]), never], &[]));
    let facts = (0..constants).filter(|_| random.below(3) > 0);
    ticket.clauses.extend(facts.map(|constant| Clause::new(&[], &[Atom::new(0, &[constant])])));
    for _ in 0..random.within(1, 3) {
        let split = coinciding_split(random, constants);
        ticket.clauses.push(split);
    }
    for _ in 0..random.within(2, 8) {
        let (n, variables) = (random.pick(&[1, 2, 2, 3]), random.pick(&[0, 1, 1, 2]));
        let denial = clause(random, &ticket, n, 0, variables);
        ticket.clauses.push(denial);
    }
    random.shuffle(&mut ticket.clauses);
    ticket
}

/// A clause with a condition for each of its one to three variables. Its alternatives are different as they are written.
fn coinciding_split(random: &mut Random, constants: u8) -> Clause {
    let variables = random.within(1, 3) as u8;
    let conditions: Vec<Atom> = (0..variables).map(|i| Atom::new(0, &[0x80 + i])).collect();
    let predicate = random.pick(&[1, 1, 2]);
    let argument = |random: &mut Random| match random.below(variables as usize + 1) as u8 {
        choice if choice < variables => 0x80 + choice,
        _ => random.below(constants as usize) as u8,
    };
    let mut alternatives: Vec<Atom> = Vec::new();
    for _ in 0..random.within(3, 8) {
        let alternative = Atom { predicate, arguments: (0..predicate).map(|_| argument(random)).collect() };
        if alternatives.len() < 4 && !alternatives.contains(&alternative) {
            alternatives.push(alternative);
        }
    }
    Clause { conditions, alternatives }
}

/// A ticket of splits and denials, nearly all ground, over some thirty atoms: most walks make ten entries or more, and
/// many a hundred.
pub fn crowded(random: &mut Random) -> Ticket {
    let constants = random.pick(&[0, 2, 3, 4]);
    let mut ticket = empty(random, constants, Vec::new());
    let atoms = random.within(24, 32) as u64;
    while ticket.atoms() < atoms {
        ticket.arities.push(if constants == 0 { 0 } else { random.pick(&[0, 1, 1, 1]) });
    }
    for _ in 0..random.within(18, 24) {
        let m = random.pick(&[2, 2, 3, 3, 4]);
        let split = clause(random, &ticket, 0, m, 0);
        ticket.clauses.push(split);
    }
    for _ in 0..random.within(24, 40) {
        let (n, variables) = (random.pick(&[2, 2, 2, 3]), random.pick(&[0, 0, 0, 0, 1]));
        let denial = clause(random, &ticket, n, 0, variables);
        ticket.clauses.push(denial);
    }
    random.shuffle(&mut ticket.clauses);
    ticket
}

/// A ticket whose walk enters each atom of its first predicate, of arity 2, one below the other: first those with
/// argument 00 in the second place, then the rest by them. With a second predicate, of arity 0, a denial wants them all
/// and closes nothing; without, it closes the path that holds them all.
pub fn deep(constants: u8, predicates: usize, limit: u32) -> Ticket {
    let atom = |x: u8, y: u8| Atom::new(0, &[x, y]);
    let (variable, another) = (0x80, 0x81);
    let mut clauses: Vec<Clause> = (0..constants).map(|k| Clause::new(&[], &[atom(k, 0), atom(k, 0)])).collect();
    clauses.extend((1..constants).map(|k| Clause::new(&[atom(variable, 0)], &[atom(variable, k), atom(variable, k)])));
    let last = if predicates == 2 { Atom::new(1, &[]) } else { atom(constants - 1, constants - 1) };
    clauses.push(Clause::new(&[atom(variable, another), last], &[]));
    Ticket { constants, limit: limit.to_be_bytes(), arities: vec![2, 0][..predicates].to_vec(), clauses }
}

/// As `deep` with two predicates, but each node has three other alternatives before the one that goes on, which a denial closes at once.
#[allow(dead_code)]
pub fn late(constants: u8, limit: u32) -> Ticket {
    let atom = |x: u8, y: u8| Atom::new(0, &[x, y]);
    let closed = |x: u8| Atom::new(2, &[x]);
    let last = |a: Atom| [closed(0), closed(1), closed(2), a];
    let (variable, another) = (0x80, 0x81);
    let mut clauses: Vec<Clause> = (0..constants).map(|k| Clause::new(&[], &last(atom(k, 0)))).collect();
    clauses.extend((1..constants).map(|k| Clause::new(&[atom(variable, 0)], &last(atom(variable, k)))));
    clauses.push(Clause::new(&[atom(variable, another), Atom::new(1, &[])], &[]));
    clauses.push(Clause::new(&[closed(variable)], &[]));
    Ticket { constants, limit: limit.to_be_bytes(), arities: vec![2, 0, 1], clauses }
}

fn empty(random: &mut Random, constants: u8, arities: Vec<u8>) -> Ticket {
    let mut limit = [0; 4];
    random.fill(&mut limit);
    Ticket { constants, limit, arities, clauses: Vec::new() }
}

fn with_clauses(random: &mut Random, constants: usize, predicates: usize, clauses: usize) -> Ticket {
    let mut ticket = empty(random, constants as u8, Vec::new());
    while ticket.arities.len() < predicates && ticket.atoms() < 1024 {
        ticket.arities.push(random.below(4) as u8);
        if ticket.atoms() > 1024 && !random.once_in(100) {
            *ticket.arities.last_mut().unwrap() = 0;
        }
    }
    add_clauses(random, &mut ticket, clauses);
    ticket
}

/// Clauses with which the ticket stays within its 16,384, but for a few that pass it.
fn add_clauses(random: &mut Random, ticket: &mut Ticket, many: usize) {
    let mut left = 16384;
    for _ in 0..many {
        let clause = fitting_clause(random, ticket, left);
        left = left.saturating_sub(ticket.marks(&clause));
        ticket.clauses.push(clause);
    }
}

fn fitting_clause(random: &mut Random, ticket: &Ticket, left: u64) -> Clause {
    for most_variables in [4, 3, 2, 1, 0] {
        let (n, m) = (random.below(5), random.below(5));
        let clause = clause(random, ticket, n, m, most_variables);
        if ticket.marks(&clause) <= left || random.once_in(500) {
            return clause;
        }
    }
    clause(random, ticket, 0, 0, 0)
}

/// A clause of any size for a ticket; one in twelve has a variable that stands in no condition, where it has an argument for that.
pub fn next_clause(random: &mut Random, ticket: &Ticket) -> Clause {
    let (n, m, variables) = (random.below(5), random.below(5), random.below(5) as u8);
    let mut next = clause(random, ticket, n, m, variables);
    if random.once_in(12) {
        free_a_variable(&mut next);
    }
    next
}

/// Adds a clause of n conditions, m alternatives and at most this many variables, with constants below `constants`;
/// none where it would pass the limit of 16,384.
pub fn add_clause(random: &mut Random, ticket: &mut Ticket, (n, m, most_variables): (usize, usize, u8), constants: u8) {
    let narrow = Ticket { constants: constants.min(ticket.constants), ..ticket.clone() };
    let next = clause(random, &narrow, n, m, most_variables);
    let sum: u64 = ticket.clauses.iter().chain([&next]).map(|clause| ticket.marks(clause)).sum();
    if sum <= 16384 {
        ticket.clauses.push(next);
    }
}

/// A clause of n conditions and m alternatives. Where no argument can be had, an atom is left out.
fn clause(random: &mut Random, ticket: &Ticket, n: usize, m: usize, most_variables: u8) -> Clause {
    let mut known = 0;
    let conditions = (0..n).filter_map(|_| atom(random, ticket, &mut known, most_variables)).collect();
    let most_variables = known;
    let alternatives = (0..m).filter_map(|_| atom(random, ticket, &mut known, most_variables)).collect();
    Clause { conditions, alternatives }
}

fn atom(random: &mut Random, ticket: &Ticket, known: &mut u8, most_variables: u8) -> Option<Atom> {
    let predicate = random.below(ticket.arities.len());
    let mut arguments = Vec::new();
    for _ in 0..ticket.arities[predicate] {
        let may_be_new = *known < most_variables;
        let variables = *known + may_be_new as u8;
        let choices = variables + ticket.constants.min(4);
        if choices == 0 {
            return None;
        }
        let choice = random.below(choices as usize) as u8;
        if choice >= variables {
            arguments.push(random.below(ticket.constants as usize) as u8);
        } else {
            arguments.push(0x80 + choice);
            *known += (choice == *known) as u8;
        }
    }
    Some(Atom { predicate: predicate as u8, arguments })
}

/// A is 1,024, or a little to either side.
pub fn atoms_near_limit(random: &mut Random) -> Ticket {
    let atoms = random.pick(&[1023, 1024, 1024, 1024, 1025, 1025, 1026]);
    let mut ticket = with_atoms(random, atoms);
    let clauses = random.below(4);
    add_clauses(random, &mut ticket, clauses);
    ticket
}

/// No clauses, and this many atoms, some hundreds.
pub fn with_atoms(random: &mut Random, atoms: u64) -> Ticket {
    loop {
        let constants = random.within(4, 32) as u8;
        let mut ticket = empty(random, constants, Vec::new());
        for arity in [3, 2, 1, 0] {
            while ticket.atoms() + ticket.power(arity) <= atoms {
                ticket.arities.push(arity as u8);
            }
        }
        if ticket.arities.len() <= 32 {
            random.shuffle(&mut ticket.arities);
            return ticket;
        }
    }
}

/// The sum of n * c^v is 16,384, or a little to either side.
pub fn marks_near_limit(random: &mut Random) -> Ticket {
    let constants = random.within(3, 32) as u8;
    let arity = if constants <= 10 { 3 } else { 2 };
    let mut ticket = empty(random, constants, vec![arity]);
    let mut left = random.pick(&[16383, 16384, 16384, 16384, 16385, 16385, 16386]);
    for variables in [4, 3, 2, 1, 0_usize] {
        for n in [4, 3, 2, 1] {
            let marks = n as u64 * ticket.power(variables);
            while n * arity as usize >= variables && marks <= left {
                let next = spread(random, &ticket, n, variables);
                ticket.clauses.push(next);
                left -= marks;
            }
        }
    }
    random.shuffle(&mut ticket.clauses);
    ticket
}

/// A clause of n conditions, all of the one predicate there is, with exactly this many variables.
fn spread(random: &mut Random, ticket: &Ticket, n: usize, variables: usize) -> Clause {
    let arity = ticket.arities[0] as usize;
    let argument = |random: &mut Random| match random.below(variables + 1) {
        0 => random.below(ticket.constants as usize) as u8,
        choice => 0x80 + choice as u8 - 1,
    };
    let mut arguments: Vec<u8> = (0..variables as u8).map(|i| 0x80 + i).collect();
    while arguments.len() < n * arity {
        arguments.push(argument(random));
    }
    let conditions = arguments.chunks(arity).map(|part| Atom { predicate: 0, arguments: part.to_vec() }).collect();
    let alternative = |random: &mut Random| Atom { predicate: 0, arguments: (0..arity).map(|_| argument(random)).collect() };
    let alternatives = (0..random.below(5)).map(|_| alternative(random)).collect();
    Clause { conditions, alternatives }
}

/// One thing about a ticket changed, so that it is mostly one that no text reads to.
pub fn spoil(random: &mut Random, ticket: &mut Ticket) {
    let many = ticket.clauses.len();
    let (k, other) = (random.below(many.max(1)), random.below(many.max(1)));
    match random.below(6) {
        0 => ticket.constants = ticket.constants.wrapping_add(random.pick(&[1, 255])),
        1 => *ticket.arities.last_mut().unwrap() = random.below(4) as u8,
        2 if many > 0 => ticket.clauses.swap(k, other),
        3 if many > 0 => free_a_variable(&mut ticket.clauses[k]),
        _ if many > 0 => change_an_argument(random, &mut ticket.clauses[k]),
        _ => {}
    }
}

/// The last argument of an alternative becomes the next variable, which stands in no condition.
fn free_a_variable(clause: &mut Clause) {
    let next = clause.variables().len() as u8;
    if let Some(argument) = clause.alternatives.iter_mut().flat_map(|atom| &mut atom.arguments).last() {
        *argument = 0x80 + next.min(3);
    }
}

fn change_an_argument(random: &mut Random, clause: &mut Clause) {
    let mut arguments: Vec<&mut u8> =
        clause.conditions.iter_mut().chain(&mut clause.alternatives).flat_map(|atom| &mut atom.arguments).collect();
    if !arguments.is_empty() {
        let at = random.below(arguments.len());
        *arguments[at] = random.pick(&[0x00, 0x01, 0x1F, 0x20, 0x7F, 0x80, 0x81, 0x82, 0x83, 0x84, 0xFF]);
    }
}

/// A table with one to three bytes changed, mostly where the ticket's own bytes lie.
pub fn damaged(random: &mut Random, table: &[u8]) -> Vec<u8> {
    let mut table = table.to_vec();
    let used = 144 + 56 * table[2] as usize;
    for _ in 0..random.pick(&[1, 1, 1, 2, 3]) {
        let at = match random.below(8) {
            0 => random.below(TABLE),
            1..=2 => random.below(16),
            3 => random.within(16, 143),
            _ => random.below(TABLE.min(used + 56)),
        };
        table[at] = match random.below(5) {
            0 => random.byte(),
            1 => table[at] ^ 1 << random.below(8),
            2 => table[at].wrapping_add(1),
            3 => table[at].wrapping_sub(1),
            _ => random.pick(&[0x00, 0x01, 0x04, 0x20, 0x40, 0x80, 0x81, 0x82, 0x83]),
        };
    }
    table
}
