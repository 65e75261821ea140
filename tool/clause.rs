//! Reading a clause line of a ticket's text, with words for what is wrong on it.

use crate::frame::{Fault, Frame};
use crate::spell::{counted, hex};
use crate::ticket::{Atom, Clause, Ticket, FIRST_VARIABLE};

pub const MOST_CLAUSES: usize = 64;
pub const MOST_SUM: usize = 16384;
const LAST_CONSTANT: u8 = 0x1F;
const LAST_VARIABLE: u8 = 0x83;

/// Takes the clause of a line, whose kind is taken already, into the ticket.
pub fn clause(ticket: &mut Ticket, frame: &mut Frame) -> Result<(), Fault> {
    if ticket.clauses.len() == MOST_CLAUSES {
        return Err(frame.fault(5, "this is the 65th clause line"));
    }
    let conditions = frame.count("the number of conditions", 0..=4)?;
    let alternatives = frame.count("the number of alternatives", 0..=4)?;
    let mut line = Line { ticket, frame, variables: 0 };
    let clause = Clause { conditions: line.atoms(conditions, "condition")?, alternatives: line.atoms(alternatives, "alternative")? };
    frame.end()?;
    free_variable(&clause)?;
    ticket.clauses.push(clause);
    let sum = ticket.sum();
    if sum > MOST_SUM {
        return Err(Fault::whole(10, format!("with this clause the sum is {sum}")));
    }
    Ok(())
}

/// The ticket with the clause of these bytes, of which the first is a clause line's kind.
pub fn with_clause(ticket: &Ticket, bytes: &[u8]) -> Result<Ticket, Fault> {
    let (mut longer, mut frame) = (ticket.clone(), Frame::of_bytes(bytes));
    frame.next("the kind")?;
    clause(&mut longer, &mut frame)?;
    Ok(longer)
}

/// A clause line, with how many different variables it has so far.
struct Line<'a> {
    ticket: &'a Ticket,
    frame: &'a mut Frame,
    variables: u8,
}

impl Line<'_> {
    fn atoms(&mut self, many: u8, what: &str) -> Result<Vec<Atom>, Fault> {
        (1..=many).map(|i| self.atom(&format!("{what} {i}"))).collect()
    }

    fn atom(&mut self, what: &str) -> Result<Atom, Fault> {
        let predicate = self.frame.next(&format!("the predicate of {what}"))?;
        let Some(arity) = self.ticket.arities.get(predicate as usize) else {
            let known = numbered(self.ticket.arities.len(), "predicate");
            return Err(self.frame.fault(6, format!("the predicate of {what} is {}, but the ticket has {known}", hex(&[predicate]))));
        };
        let arguments = (1..=*arity).map(|i| self.argument(&format!("argument {i} of {what}"))).collect::<Result<_, _>>()?;
        Ok(Atom { predicate, arguments })
    }

    fn argument(&mut self, what: &str) -> Result<u8, Fault> {
        let argument = self.frame.next(what)?;
        let here = format!("{what} is {}", hex(&[argument]));
        match argument {
            0..=LAST_CONSTANT if argument < self.ticket.constants => {}
            0..=LAST_CONSTANT => {
                let known = numbered(self.ticket.constants as usize, "constant");
                return Err(self.frame.fault(6, format!("{here}, but the ticket has {known}")));
            }
            FIRST_VARIABLE..=LAST_VARIABLE => {
                let next = FIRST_VARIABLE + self.variables;
                if argument > next {
                    return Err(self.frame.fault(7, format!("{here}, but the next variable to appear is {}", hex(&[next]))));
                }
                self.variables += (argument == next) as u8;
            }
            _ => return Err(self.frame.fault(6, format!("{here}, which is neither a constant nor a variable"))),
        }
        Ok(argument)
    }
}

/// That each variable of an alternative stands in a condition.
fn free_variable(clause: &Clause) -> Result<(), Fault> {
    let bound = |argument: &&u8| **argument < FIRST_VARIABLE || clause.conditions.iter().any(|atom| atom.arguments.contains(argument));
    for (i, alternative) in clause.alternatives.iter().enumerate() {
        if let Some(free) = alternative.arguments.iter().find(|argument| !bound(argument)) {
            return Err(Fault::whole(8, format!("variable {} of alternative {} stands in no condition", hex(&[*free]), i + 1)));
        }
    }
    Ok(())
}

/// How many of them there are, and how they are numbered.
fn numbered(many: usize, noun: &str) -> String {
    match many {
        0 => format!("no {noun}"),
        1 => format!("1 {noun}, 00"),
        _ => format!("{}, 00 to {}", counted(many, noun), hex(&[many as u8 - 1])),
    }
}
