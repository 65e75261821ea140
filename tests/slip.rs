//! Offering a clause frame and setting a slip, by document 02: what is refused, and why, and what is held afterwards. A frame is judged byte by byte,
//! however many bytes it has, and no line is made of it; of one that a line can hold, the reference's reading of the longer text must say the same.
#![allow(dead_code)] // each program uses its own part

use crate::reference::{
    self, Atom, Clause, Refusal, Ticket, BAD_COUNT, BAD_KIND, BAD_LENGTH, BAD_NUMBERING, FREE_VARIABLE, MOST_CLAUSES, MOST_MARKS, NO_TABLE, SHORT_BUFFER, SLIP,
    STALE_SLIP, TABLE, TOO_MANY_MARKS, UNKNOWN,
};

/// The kind byte of a clause frame.
pub const CLAUSE: u8 = 0x03;

/// The most bytes of a frame that a line, and so a slip, can hold.
pub const ROOM: usize = 35;

/// Why an offer or a setting is refused, in the order in which it is looked for; from `Count` to `LeftOver` byte by byte.
#[derive(Clone, Copy, Debug, PartialEq, Eq, PartialOrd, Ord)]
pub enum Why {
    ShortTable,
    ShortSlip,
    NoTable,
    Stale,
    NoRoom,
    NoBytes,
    OtherKind,
    Full,
    Count,
    Unknown,
    Numbering,
    Missing,
    LeftOver,
    Free,
    Heavy,
}

pub const WHYS: [Why; 15] = [
    Why::ShortTable,
    Why::ShortSlip,
    Why::NoTable,
    Why::Stale,
    Why::NoRoom,
    Why::NoBytes,
    Why::OtherKind,
    Why::Full,
    Why::Count,
    Why::Unknown,
    Why::Numbering,
    Why::Missing,
    Why::LeftOver,
    Why::Free,
    Why::Heavy,
];

impl Why {
    pub fn number(self) -> u8 {
        match self {
            Why::ShortTable | Why::ShortSlip => SHORT_BUFFER,
            Why::NoTable => NO_TABLE,
            Why::Stale => STALE_SLIP,
            Why::NoBytes | Why::OtherKind => BAD_KIND,
            Why::Full | Why::Count => BAD_COUNT,
            Why::NoRoom | Why::Missing | Why::LeftOver => BAD_LENGTH,
            Why::Unknown => UNKNOWN,
            Why::Numbering => BAD_NUMBERING,
            Why::Free => FREE_VARIABLE,
            Why::Heavy => TOO_MANY_MARKS,
        }
    }
}

/// Offering with a table and a slip of these lengths: the slip's 37 bytes afterwards. The ticket is the table's, or none where no text reads to its
/// first 4,096 bytes.
pub fn offer(table_len: usize, slip_len: usize, ticket: Option<&Ticket>, frame: &[u8]) -> Result<Vec<u8>, Why> {
    let ticket = lent(table_len, slip_len, ticket)?;
    next_clause(ticket, frame)?;
    Ok(filled(ticket.clauses.len() as u8, frame))
}

/// Setting with a table of this length: the ticket afterwards.
pub fn set(table_len: usize, ticket: Option<&Ticket>, slip: &[u8]) -> Result<Ticket, Why> {
    let ticket = lent(table_len, slip.len(), ticket)?;
    let (count, len) = (slip[0] as usize, slip[1] as usize);
    if count != ticket.clauses.len() {
        return Err(Why::Stale);
    }
    if len > ROOM {
        return Err(Why::NoRoom);
    }
    let clause = next_clause(ticket, &slip[2..][..len])?;
    Ok(with_clause(ticket, clause))
}

fn lent(table_len: usize, slip_len: usize, ticket: Option<&Ticket>) -> Result<&Ticket, Why> {
    if table_len < TABLE {
        return Err(Why::ShortTable);
    }
    if slip_len < SLIP {
        return Err(Why::ShortSlip);
    }
    ticket.ok_or(Why::NoTable)
}

/// The 37 bytes of a slip: the number of clauses seen, the number of the frame's bytes, these, and zeros.
pub fn filled(clauses: u8, frame: &[u8]) -> Vec<u8> {
    let mut slip = vec![0; SLIP];
    slip[0] = clauses;
    slip[1] = frame.len() as u8;
    slip[2..][..frame.len()].copy_from_slice(frame);
    slip
}

fn with_clause(ticket: &Ticket, clause: Clause) -> Ticket {
    let mut longer = ticket.clone();
    longer.clauses.push(clause);
    longer
}

/// The clause of a frame that is taken as the ticket's next clause line. Where a line can say it, the reading of the longer text must agree.
pub fn next_clause(ticket: &Ticket, frame: &[u8]) -> Result<Clause, Why> {
    let judged = judged(ticket, frame);
    if frame.first() == Some(&CLAUSE) && frame.len() <= ROOM {
        let expected = match &judged {
            Ok(clause) => Ok(with_clause(ticket, clause.clone())),
            Err(why) => Err(Refusal { number: why.number(), line: (2 + ticket.arities.len() + ticket.clauses.len()) as u32 }),
        };
        assert_eq!(reference::read(&text_with(&reference::print(ticket), frame)), expected, "reading with the line of {frame:02X?}");
    }
    judged
}

/// A ticket's text with a frame's line before the last one, FF, which is one higher.
pub fn text_with(text: &[u8], frame: &[u8]) -> Vec<u8> {
    let (before, last) = text.split_at(text.len() - "FF00\n".len());
    let clauses = u8::from_str_radix(std::str::from_utf8(&last[2..4]).expect("digits"), 16).expect("digits");
    [before, &reference::line(frame), &reference::line(&[0xFF, clauses + 1])].concat()
}

fn judged(ticket: &Ticket, frame: &[u8]) -> Result<Clause, Why> {
    let (kind, rest) = frame.split_first().ok_or(Why::NoBytes)?;
    if *kind != CLAUSE {
        return Err(Why::OtherKind);
    }
    if ticket.clauses.len() == MOST_CLAUSES {
        return Err(Why::Full);
    }
    let mut taken = Taken { ticket, counts: Vec::new(), atoms: Vec::new(), variables: 0 };
    rest.iter().try_for_each(|byte| taken.take(*byte))?;
    taken.clause()
}

/// What the bytes so far have given: the two counts, atoms of which the last one may lack arguments, and the number of variables seen.
struct Taken<'a> {
    ticket: &'a Ticket,
    counts: Vec<u8>,
    atoms: Vec<Atom>,
    variables: u8,
}

impl Taken<'_> {
    fn take(&mut self, byte: u8) -> Result<(), Why> {
        if self.counts.len() < 2 {
            self.counts.push(byte);
            return if byte > 4 { Err(Why::Count) } else { Ok(()) };
        }
        if self.lacks_argument() {
            self.check_argument(byte)?;
            self.atoms.last_mut().expect("an atom").arguments.push(byte);
            return Ok(());
        }
        if self.atoms.len() == self.asked() {
            return Err(Why::LeftOver);
        }
        self.atoms.push(Atom::new(byte, &[]));
        if byte as usize >= self.ticket.arities.len() { Err(Why::Unknown) } else { Ok(()) }
    }

    fn asked(&self) -> usize {
        self.counts.iter().map(|count| *count as usize).sum()
    }

    fn lacks_argument(&self) -> bool {
        self.atoms.last().is_some_and(|atom| atom.arguments.len() < self.ticket.arities[atom.predicate as usize] as usize)
    }

    fn check_argument(&mut self, byte: u8) -> Result<(), Why> {
        if byte < 0x20 && byte < self.ticket.constants {
            return Ok(());
        }
        if !reference::is_variable(byte) {
            return Err(Why::Unknown);
        }
        let place = byte - 0x80 + 1;
        if place > self.variables + 1 {
            return Err(Why::Numbering);
        }
        self.variables = self.variables.max(place);
        Ok(())
    }

    /// The whole clause, if nothing is missing.
    fn clause(mut self) -> Result<Clause, Why> {
        if self.counts.len() < 2 || self.lacks_argument() || self.atoms.len() < self.asked() {
            return Err(Why::Missing);
        }
        let alternatives = self.atoms.split_off(self.counts[0] as usize);
        let bound: Vec<u8> = self.atoms.iter().flat_map(|atom| atom.arguments.clone()).collect();
        if alternatives.iter().flat_map(|atom| &atom.arguments).any(|argument| *argument >= 0x80 && !bound.contains(argument)) {
            return Err(Why::Free);
        }
        let clause = Clause { conditions: self.atoms, alternatives };
        let sum: u64 = self.ticket.clauses.iter().chain([&clause]).map(|clause| self.ticket.marks(clause)).sum();
        if sum > MOST_MARKS { Err(Why::Heavy) } else { Ok(clause) }
    }
}
