//! The rules of a ticket in bytes, by the library's layout of the rules: written from document 01's rewriting, and read back.

use crate::magic::{Aim, Ask, Gives, Rule};
use crate::reference::{self, Atom, Ticket};
use crate::report::{same, Report};

/// Bytes before the first rule, and of each rule.
const HEADING: usize = 144;
const RECORD: usize = 42;

/// Where a rule's atoms begin: those asked for, and those given.
const ASKED: usize = 10;
const GIVEN: usize = 26;

/// How many there are, by the rules of each clause.
pub fn count(rules: &[Vec<Rule>]) -> usize {
    rules.iter().map(Vec::len).sum()
}

// ---- Writing ----

pub fn laid_out(ticket: &Ticket, rules: &[Vec<Rule>]) -> Vec<u8> {
    let mut bytes = reference::encode(ticket)[..HEADING].to_vec();
    bytes[2..4].copy_from_slice(&(count(rules) as u16).to_le_bytes());
    bytes[4..8].fill(0); // no limit
    let mut marks = 0;
    for (k, rules) in rules.iter().enumerate() {
        for (i, rule) in rules.iter().enumerate() {
            bytes.extend(record(k, i, rule, ticket.power(rule.variables), marks));
        }
        marks += ticket.marks(&ticket.clauses[k]);
    }
    bytes
}

fn record(k: usize, i: usize, rule: &Rule, instances: u64, marks: u64) -> Vec<u8> {
    let asked: Vec<&Atom> = rule.asks.iter().filter_map(asked_atom).collect();
    let (goes_on, given) = match &rule.gives {
        Gives::Onward(atom, _) => (1, vec![atom]),
        Gives::Alternatives(aims) => (0, aims.iter().filter_map(aimed_atom).collect()),
    };
    let mut bytes = vec![k as u8, i as u8, rule.variables as u8, goes_on, asked.len() as u8, given.len() as u8];
    bytes.extend((instances as u16).to_le_bytes());
    bytes.extend((marks as u16).to_le_bytes());
    for (atoms, end) in [(asked, GIVEN), (given, RECORD)] {
        for atom in atoms {
            bytes.push(atom.predicate);
            bytes.extend((0..3).map(|j| atom.arguments.get(j).copied().unwrap_or(0)));
        }
        bytes.resize(end, 0);
    }
    bytes
}

fn asked_atom(ask: &Ask) -> Option<&Atom> {
    match ask {
        Ask::Wanted(aim) => aimed_atom(aim),
        Ask::True(atom) => Some(atom),
        Ask::Mark(_) => None,
    }
}

fn aimed_atom(aim: &Aim) -> Option<&Atom> {
    match aim {
        Aim::Atom(atom) => Some(atom),
        Aim::False => None,
    }
}

// ---- Reading back ----

/// That these are the rules of a ticket of these arities that a rules buffer begins with.
pub fn same_rules(expected: &[Vec<Rule>], arities: &[u8], buffer: &[u8]) -> Result<(), Report> {
    let many = u16::from_le_bytes([buffer[2], buffer[3]]) as usize;
    let room = (buffer.len() - HEADING) / RECORD;
    same("number of rules in the buffer", count(expected), many.min(room))?;
    let records: Vec<&[u8]> = buffer[HEADING..].chunks(RECORD).take(many).collect();
    let own_clause = |one: &&[u8], next: &&[u8]| one[0] == next[0];
    let read: Vec<Vec<Rule>> = records.chunk_by(own_clause).map(|clause| clause.iter().map(|record| rule_in(record, arities)).collect()).collect();
    same("rules read back", expected, &read[..])
}

fn rule_in(record: &[u8], arities: &[u8]) -> Rule {
    let i = record[1] as usize;
    let atoms = |from: usize, many: u8| record[from..].chunks(4).take(many as usize).map(|bytes| atom_in(bytes, arities)).collect();
    let (asked, given): (Vec<Atom>, Vec<Atom>) = (atoms(ASKED, record[4]), atoms(GIVEN, record[5]));
    let asks = match i {
        0 => aims(asked).into_iter().map(Ask::Wanted).collect(),
        _ => [Ask::Mark(i)].into_iter().chain(asked.into_iter().map(Ask::True)).collect(),
    };
    let gives = match given.first() {
        Some(atom) if record[3] == 1 => Gives::Onward(atom.clone(), i + 1),
        _ => Gives::Alternatives(aims(given)),
    };
    Rule { variables: record[2] as usize, asks, gives }
}

/// Where there are no atoms, "false".
fn aims(atoms: Vec<Atom>) -> Vec<Aim> {
    if atoms.is_empty() { vec![Aim::False] } else { atoms.into_iter().map(Aim::Atom).collect() }
}

/// An atom; with no arguments where there is no such predicate.
fn atom_in(bytes: &[u8], arities: &[u8]) -> Atom {
    let arity = arities.get(bytes[0] as usize).copied().unwrap_or(0) as usize;
    Atom::new(bytes[0], &bytes[1..][..arity])
}
