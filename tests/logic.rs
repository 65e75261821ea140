//! The logic of a ticket, from document 01 alone: ground atoms by their numbers, instances in the walk's
//! order, judging, and how many conditions hold. Plain and naive; it shares nothing with the crates.
#![allow(dead_code)] // each program uses its own part

use crate::reference::{is_variable, Atom, Clause, Ticket, ANSWER, BAD_ANSWER, NO_INSTANCE, NO_TABLE, SHORT_BUFFER, TABLE};

/// A set of ground atoms: whether each is in it, by number.
pub type Atoms = Vec<bool>;

/// A ticket's ground atoms, how many, and its instances in the walk's order.
pub struct Ground {
    pub atoms: usize,
    pub instances: Vec<Instance>,
}

/// The clause, the value of each of its variables, and the numbers of its atoms.
#[derive(Clone, Debug, PartialEq, Eq)]
pub struct Instance {
    pub clause: usize,
    pub values: Vec<u8>,
    pub conditions: Vec<usize>,
    pub alternatives: Vec<usize>,
}

pub fn ground(ticket: &Ticket) -> Ground {
    let of_clause = |(k, clause): (usize, &Clause)| -> Vec<Instance> {
        let instance = |values: Vec<u8>| Instance {
            clause: k,
            conditions: clause.conditions.iter().map(|atom| number(ticket, atom, &values)).collect(),
            alternatives: clause.alternatives.iter().map(|atom| number(ticket, atom, &values)).collect(),
            values,
        };
        all_values(ticket.constants, clause.variables().len()).into_iter().map(instance).collect()
    };
    Ground { atoms: ticket.atoms() as usize, instances: ticket.clauses.iter().enumerate().flat_map(of_clause).collect() }
}

/// Each way to put a constant for each variable; the value of 80 changes slowest.
pub fn all_values(constants: u8, variables: usize) -> Vec<Vec<u8>> {
    let mut all = vec![Vec::new()];
    for _ in 0..variables {
        all = all.iter().flat_map(|values| (0..constants).map(|value| [&values[..], &[value]].concat())).collect();
    }
    all
}

/// The number of a ground atom: by predicate, then by arguments with the first one slowest.
pub fn number(ticket: &Ticket, atom: &Atom, values: &[u8]) -> usize {
    let within = atom.arguments.iter().fold(0, |number, argument| number * ticket.constants as usize + value(*argument, values) as usize);
    ticket.first_atom(atom.predicate as usize) as usize + within
}

fn value(argument: u8, values: &[u8]) -> u8 {
    if is_variable(argument) { values[argument as usize - 0x80] } else { argument }
}

impl Instance {
    pub fn is_violated(&self, set: &[bool]) -> bool {
        self.conditions.iter().all(|atom| set[*atom]) && !self.alternatives.iter().any(|atom| set[*atom])
    }

    /// The values of 80, 81, 82, 83, with 0 for a variable that the clause lacks.
    pub fn four_values(&self) -> [u8; 4] {
        let mut four = [0; 4];
        four[..self.values.len()].copy_from_slice(&self.values);
        four
    }
}

impl Ground {
    pub fn first_violated(&self, set: &[bool]) -> Option<&Instance> {
        self.instances.iter().find(|instance| instance.is_violated(set))
    }
}

/// What judging answers.
#[derive(Clone, Copy, Debug, PartialEq, Eq)]
pub enum Judging {
    Refused(u8),
    Fitting,
    /// by clause and the values of 80, 81, 82, 83
    Violated(u8, [u8; 4]),
}

/// Judging with a table of this length. Its ticket is given, or none where no text reads to the first 4,096 bytes.
pub fn judge(table_len: usize, ticket: Option<&Ground>, answer: &[u8]) -> Judging {
    if table_len < TABLE || answer.len() < ANSWER {
        return Judging::Refused(SHORT_BUFFER);
    }
    let Some(ground) = ticket else { return Judging::Refused(NO_TABLE) };
    let marks = &answer[..ground.atoms];
    if marks.iter().any(|mark| *mark != 0 && *mark != 1) {
        return Judging::Refused(BAD_ANSWER);
    }
    let set: Atoms = marks.iter().map(|mark| *mark == 1).collect();
    match ground.first_violated(&set) {
        None => Judging::Fitting,
        Some(instance) => Judging::Violated(instance.clause as u8, instance.four_values()),
    }
}

/// How many conditions of an instance hold from the left before the first that does not, n if all do; or a refusal. The instance is named by
/// clause and the values of 80, 81, 82, 83, of which those past the clause's own variables do not count. Lengths and ticket are as in `judge`.
pub fn holding(table_len: usize, ticket: Option<&Ticket>, answer: &[u8], clause: u32, values: [u32; 4]) -> Result<u32, u8> {
    if table_len < TABLE || answer.len() < ANSWER {
        return Err(SHORT_BUFFER);
    }
    let ticket = ticket.ok_or(NO_TABLE)?;
    if answer[..ticket.atoms() as usize].iter().any(|mark| *mark > 1) {
        return Err(BAD_ANSWER);
    }
    let clause = ticket.clauses.get(clause as usize).ok_or(NO_INSTANCE)?;
    let own = &values[..clause.variables().len()];
    if own.iter().any(|value| *value >= ticket.constants as u32) {
        return Err(NO_INSTANCE);
    }
    let own: Vec<u8> = own.iter().map(|value| *value as u8).collect();
    let holds = |atom: &&Atom| answer[number(ticket, atom, &own)] == 1;
    Ok(clause.conditions.iter().take_while(holds).count() as u32)
}
