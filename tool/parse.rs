//! Reading a ticket's text, with words for what is wrong. Whether a text is refused, by which number and at which line, is the library's to
//! say. From here come the words for it, and the ticket in a text that the library accepted.

use crate::clause::clause;
use crate::frame::{Fault, Frame};
use crate::spell::{counted, hex};
use crate::ticket::Ticket;

const MOST_ATOMS: usize = 1024;

/// The ticket, or the first faulty line, counted from 1, with what is wrong on it.
pub fn parse(text: &[u8]) -> Result<Ticket, (usize, Fault)> {
    let mut lines: Vec<&[u8]> = text.split(|byte| *byte == b'\n').collect();
    let unended = lines.pop().unwrap_or_default();
    let mut reading = Reading::default();
    for (i, line) in lines.iter().enumerate() {
        reading.line(line).map_err(|fault| (i + 1, fault))?;
    }
    let end = if unended.is_empty() { reading.end() } else { Err(Fault::whole(1, "the text ends on this line, without 0A after it")) };
    end.map_err(|fault| (lines.len() + 1, fault))
}

/// What the lines so far gave.
#[derive(Default)]
struct Reading {
    ticket: Option<Ticket>,
    predicates: usize,
    closed: bool,
}

impl Reading {
    fn line(&mut self, line: &[u8]) -> Result<(), Fault> {
        let mut frame = Frame::of(line)?;
        let kind = frame.next("the kind")?;
        if self.closed {
            return Err(frame.fault(2, "a line follows the line of kind FF, which is the last"));
        }
        let Some(ticket) = &mut self.ticket else { return self.first(kind, &mut frame) };
        let complete = ticket.arities.len() == self.predicates;
        match kind {
            0x02 if !complete => arity(ticket, &mut frame),
            0x03 if complete => clause(ticket, &mut frame),
            0xFF if complete => {
                self.closed = true;
                closing(ticket, &mut frame)
            }
            _ => Err(frame.fault(2, misplaced(kind, ticket.arities.len(), self.predicates))),
        }
    }

    fn first(&mut self, kind: u8, frame: &mut Frame) -> Result<(), Fault> {
        if kind != 0x01 {
            return Err(frame.fault(2, format!("the first line must be of kind 01, and this one is of kind {}", hex(&[kind]))));
        }
        let version = frame.next("the version")?;
        if version != 0x01 {
            return Err(frame.fault(4, format!("the version is {}", hex(&[version]))));
        }
        let constants = frame.count("the number of constants", 0..=32)?;
        self.predicates = frame.count("the number of predicates", 1..=32)? as usize;
        let mut limit = [0; 4];
        for byte in &mut limit {
            *byte = frame.next("a byte of the limit, which has four,")?;
        }
        self.ticket = Some(Ticket { constants, limit: u32::from_be_bytes(limit), arities: Vec::new(), clauses: Vec::new() });
        frame.end()
    }

    /// The ticket, where the text ends after these lines.
    fn end(self) -> Result<Ticket, Fault> {
        match self.ticket {
            Some(ticket) if self.closed => Ok(ticket),
            Some(_) => Err(Fault::whole(2, "the text ends before this line, without a line of kind FF")),
            None => Err(Fault::whole(2, "the text is empty")),
        }
    }
}

fn arity(ticket: &mut Ticket, frame: &mut Frame) -> Result<(), Fault> {
    let arity = frame.count("the arity", 0..=3)?;
    frame.end()?;
    ticket.arities.push(arity);
    let atoms = ticket.atoms();
    if atoms > MOST_ATOMS {
        let constants = counted(ticket.constants as usize, "constant");
        return Err(frame.fault(9, format!("with this predicate of arity {arity} and {constants} there are {atoms} ground atoms")));
    }
    Ok(())
}

fn closing(ticket: &Ticket, frame: &mut Frame) -> Result<(), Fault> {
    let said = frame.next("the number of clause lines")?;
    if said as usize != ticket.clauses.len() {
        let there = counted(ticket.clauses.len(), "clause line");
        return Err(frame.fault(5, format!("it says {said}, and the text has {there}")));
    }
    frame.end()
}

/// Why a line of this kind cannot stand where so many of the predicates have their line.
fn misplaced(kind: u8, have: usize, predicates: usize) -> String {
    match kind {
        0x01 => "a line of kind 01 stands once, as the first".to_string(),
        0x02 => format!("the ticket has {}, and each has its line already", counted(predicates, "predicate")),
        0x03 | 0xFF => format!("a line of kind 02 must stand here: {have} of {} so far", counted(predicates, "predicate")),
        _ => format!("kind {} is unknown", hex(&[kind])),
    }
}
