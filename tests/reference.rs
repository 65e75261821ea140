//! Reading and writing tickets, a second time: plain and naive, written from document 01 and the
//! library's table layout alone. It shares nothing with the crates, so that the two can be compared.
#![allow(dead_code)] // each program uses its own part

pub const TABLE: usize = 4096;
pub const RULES: usize = 16384;
pub const ANSWER: usize = 1024;
pub const WORK: usize = 65536;
pub const TEXT_OUT: usize = 7168;
pub const SLIP: usize = 37;

pub const BAD_LINE: u8 = 1;
pub const BAD_KIND: u8 = 2;
pub const BAD_LENGTH: u8 = 3;
pub const BAD_VERSION: u8 = 4;
pub const BAD_COUNT: u8 = 5;
pub const UNKNOWN: u8 = 6;
pub const BAD_NUMBERING: u8 = 7;
pub const FREE_VARIABLE: u8 = 8;
pub const TOO_MANY_ATOMS: u8 = 9;
pub const TOO_MANY_MARKS: u8 = 10;
pub const SHORT_BUFFER: u8 = 11;
pub const NO_TABLE: u8 = 31;
pub const BAD_ANSWER: u8 = 32;
pub const TOO_MANY_ENTRIES: u8 = 41;
pub const NO_SESSION: u8 = 42;
pub const STALE_SLIP: u8 = 43;
pub const NO_INSTANCE: u8 = 44;
pub const BAD_FACTS: u8 = 45;

const MOST_ATOMS: u64 = 1024;
pub const MOST_MARKS: u64 = 16384;
pub const MOST_CLAUSES: usize = 64;
const MOST_PREDICATES: usize = 32;

#[derive(Clone, Debug, PartialEq, Eq)]
pub struct Ticket {
    pub constants: u8,
    pub limit: [u8; 4],
    pub arities: Vec<u8>,
    pub clauses: Vec<Clause>,
}

#[derive(Clone, Debug, PartialEq, Eq)]
pub struct Clause {
    pub conditions: Vec<Atom>,
    pub alternatives: Vec<Atom>,
}

/// Arguments are as in the text: 00 to 1F a constant, 80 to 83 a variable.
#[derive(Clone, Debug, PartialEq, Eq)]
pub struct Atom {
    pub predicate: u8,
    pub arguments: Vec<u8>,
}

#[derive(Clone, Copy, Debug, PartialEq, Eq)]
pub struct Refusal {
    pub number: u8,
    pub line: u32,
}

impl Ticket {
    pub fn power(&self, exponent: usize) -> u64 {
        (self.constants as u64).pow(exponent as u32)
    }

    /// The number of the first atom of predicate j; for j = p it is A.
    pub fn first_atom(&self, j: usize) -> u64 {
        self.arities[..j].iter().map(|arity| self.power(*arity as usize)).sum()
    }

    pub fn atoms(&self) -> u64 {
        self.first_atom(self.arities.len())
    }

    pub fn instances(&self, clause: &Clause) -> u64 {
        self.power(clause.variables().len())
    }

    /// n * c^v of a clause. The sum of these is limited.
    pub fn marks(&self, clause: &Clause) -> u64 {
        clause.conditions.len() as u64 * self.instances(clause)
    }
}

impl Atom {
    pub fn new(predicate: u8, arguments: &[u8]) -> Atom {
        Atom { predicate, arguments: arguments.to_vec() }
    }
}

impl Clause {
    pub fn new(conditions: &[Atom], alternatives: &[Atom]) -> Clause {
        Clause { conditions: conditions.to_vec(), alternatives: alternatives.to_vec() }
    }

    /// The clause's different variables, in the order in which they first appear.
    pub fn variables(&self) -> Vec<u8> {
        let mut found = variables_of(&self.conditions);
        for variable in variables_of(&self.alternatives) {
            if !found.contains(&variable) {
                found.push(variable);
            }
        }
        found
    }
}

fn variables_of(atoms: &[Atom]) -> Vec<u8> {
    let mut found = Vec::new();
    for argument in atoms.iter().flat_map(|atom| &atom.arguments) {
        if is_variable(*argument) && !found.contains(argument) {
            found.push(*argument);
        }
    }
    found
}

pub fn is_variable(argument: u8) -> bool {
    (0x80..=0x83).contains(&argument)
}

// ---- Reading ----

pub fn read(text: &[u8]) -> Result<Ticket, Refusal> {
    let mut lines: Vec<&[u8]> = text.split(|byte| *byte == b'\n').collect();
    let unended = lines.pop().unwrap_or(b"");
    let mut reading = Reading { begun: None, ended: false };
    for (i, line) in lines.iter().enumerate() {
        reading.line(line).map_err(|number| Refusal { number, line: i as u32 + 1 })?;
    }
    let after_last = lines.len() as u32 + 1;
    if !unended.is_empty() {
        return Err(Refusal { number: BAD_LINE, line: after_last });
    }
    match reading.begun {
        Some(begun) if reading.ended => Ok(begun.ticket),
        _ => Err(Refusal { number: BAD_KIND, line: after_last }),
    }
}

/// What the lines before gave: nothing, a ticket begun, or a ticket ended.
struct Reading {
    begun: Option<Begun>,
    ended: bool,
}

/// The ticket up to here, with the number of predicates announced and the sum of n * c^v.
struct Begun {
    ticket: Ticket,
    predicates: usize,
    marks: u64,
}

impl Reading {
    /// Takes one line, without its 0A. The faults are looked for in document 01's order.
    fn line(&mut self, line: &[u8]) -> Result<(), u8> {
        let frame = frame(line)?;
        let kind = frame[0];
        let rest = Rest(frame[1..].to_vec());
        if self.ended {
            return Err(BAD_KIND);
        }
        let Some(begun) = &mut self.begun else {
            if kind != 0x01 {
                return Err(BAD_KIND);
            }
            self.begun = Some(header(rest)?);
            return Ok(());
        };
        let all_predicates = begun.ticket.arities.len() == begun.predicates;
        match kind {
            0x02 if !all_predicates => predicate(&mut begun.ticket, rest),
            0x03 if all_predicates => clause(begun, rest),
            0xFF if all_predicates => {
                end(&begun.ticket, rest)?;
                self.ended = true;
                Ok(())
            }
            _ => Err(BAD_KIND),
        }
    }
}

/// The bytes of a line of digits: at least one, at most 35.
fn frame(line: &[u8]) -> Result<Vec<u8>, u8> {
    if line.is_empty() || line.len() % 2 == 1 || line.len() > 70 {
        return Err(BAD_LINE);
    }
    let digits: Vec<u8> = line.iter().map(|byte| digit(*byte).ok_or(BAD_LINE)).collect::<Result<_, _>>()?;
    Ok(digits.chunks(2).map(|pair| pair[0] * 16 + pair[1]).collect())
}

fn digit(byte: u8) -> Option<u8> {
    match byte {
        b'0'..=b'9' => Some(byte - b'0'),
        b'A'..=b'F' => Some(byte - b'A' + 10),
        _ => None,
    }
}

/// The bytes of a frame that are not yet looked at.
struct Rest(Vec<u8>);

impl Rest {
    fn next(&mut self) -> Result<u8, u8> {
        if self.0.is_empty() {
            return Err(BAD_LENGTH);
        }
        Ok(self.0.remove(0))
    }

    fn count(&mut self, least: u8, most: u8) -> Result<u8, u8> {
        let count = self.next()?;
        if count < least || count > most {
            return Err(BAD_COUNT);
        }
        Ok(count)
    }

    fn done(&self) -> Result<(), u8> {
        if self.0.is_empty() { Ok(()) } else { Err(BAD_LENGTH) }
    }
}

fn header(mut rest: Rest) -> Result<Begun, u8> {
    if rest.next()? != 0x01 {
        return Err(BAD_VERSION);
    }
    let constants = rest.count(0, 32)?;
    let predicates = rest.count(1, 32)?;
    let limit = [rest.next()?, rest.next()?, rest.next()?, rest.next()?];
    rest.done()?;
    let ticket = Ticket { constants, limit, arities: Vec::new(), clauses: Vec::new() };
    Ok(Begun { ticket, predicates: predicates as usize, marks: 0 })
}

fn predicate(ticket: &mut Ticket, mut rest: Rest) -> Result<(), u8> {
    let arity = rest.count(0, 3)?;
    rest.done()?;
    ticket.arities.push(arity);
    if ticket.atoms() > MOST_ATOMS {
        return Err(TOO_MANY_ATOMS);
    }
    Ok(())
}

fn clause(begun: &mut Begun, mut rest: Rest) -> Result<(), u8> {
    let ticket = &mut begun.ticket;
    if ticket.clauses.len() == MOST_CLAUSES {
        return Err(BAD_COUNT);
    }
    let n = rest.count(0, 4)?;
    let m = rest.count(0, 4)?;
    let mut variables = 0;
    let mut atoms = |many: u8| -> Result<Vec<Atom>, u8> { (0..many).map(|_| atom(ticket, &mut rest, &mut variables)).collect() };
    let clause = Clause { conditions: atoms(n)?, alternatives: atoms(m)? };
    rest.done()?;
    let bound = variables_of(&clause.conditions);
    if variables_of(&clause.alternatives).iter().any(|variable| !bound.contains(variable)) {
        return Err(FREE_VARIABLE);
    }
    begun.marks += ticket.marks(&clause);
    if begun.marks > MOST_MARKS {
        return Err(TOO_MANY_MARKS);
    }
    ticket.clauses.push(clause);
    Ok(())
}

/// One atom of a clause in which `variables` different variables have appeared.
fn atom(ticket: &Ticket, rest: &mut Rest, variables: &mut u8) -> Result<Atom, u8> {
    let predicate = rest.next()?;
    let arity = *ticket.arities.get(predicate as usize).ok_or(UNKNOWN)?;
    let mut arguments = Vec::new();
    for _ in 0..arity {
        let argument = rest.next()?;
        match argument {
            0x00..=0x1F if argument < ticket.constants => {}
            0x80..=0x83 if argument - 0x80 < *variables => {}
            0x80..=0x83 if argument - 0x80 == *variables => *variables += 1,
            0x80..=0x83 => return Err(BAD_NUMBERING),
            _ => return Err(UNKNOWN),
        }
        arguments.push(argument);
    }
    Ok(Atom { predicate, arguments })
}

fn end(ticket: &Ticket, mut rest: Rest) -> Result<(), u8> {
    if rest.next()? as usize != ticket.clauses.len() {
        return Err(BAD_COUNT);
    }
    rest.done()
}

// ---- Writing ----

/// The text of a ticket. Any ticket is printed, also one that reading would refuse.
pub fn print(ticket: &Ticket) -> Vec<u8> {
    let mut frames = vec![[&[0x01, 0x01, ticket.constants, ticket.arities.len() as u8], &ticket.limit[..]].concat()];
    frames.extend(ticket.arities.iter().map(|arity| vec![0x02, *arity]));
    frames.extend(ticket.clauses.iter().map(clause_frame));
    frames.push(vec![0xFF, ticket.clauses.len() as u8]);
    frames.iter().flat_map(|frame| line(frame)).collect()
}

/// The bytes of a clause line.
pub fn clause_frame(clause: &Clause) -> Vec<u8> {
    let mut frame = vec![0x03, clause.conditions.len() as u8, clause.alternatives.len() as u8];
    for atom in clause.conditions.iter().chain(&clause.alternatives) {
        frame.push(atom.predicate);
        frame.extend(&atom.arguments);
    }
    frame
}

/// A frame as a line of text.
pub fn line(frame: &[u8]) -> Vec<u8> {
    let digit = |value: u8| b"0123456789ABCDEF"[value as usize];
    let mut text: Vec<u8> = frame.iter().flat_map(|byte| [digit(byte / 16), digit(byte % 16)]).collect();
    text.push(b'\n');
    text
}

// ---- The table ----

/// The table of a ticket. One that reading would refuse is laid out too, as far as there is room:
/// of a number too large for its two bytes the low ones stay.
pub fn encode(ticket: &Ticket) -> Vec<u8> {
    let mut table = vec![0; TABLE];
    table[0] = ticket.constants;
    table[1] = ticket.arities.len() as u8;
    table[2] = ticket.clauses.len() as u8;
    table[4..8].copy_from_slice(&ticket.limit);
    put(&mut table, 8, ticket.atoms());
    for (j, arity) in ticket.arities.iter().enumerate() {
        table[16 + 4 * j] = *arity;
        put(&mut table, 17 + 4 * j, ticket.first_atom(j));
    }
    let mut marks = 0;
    for (k, clause) in ticket.clauses.iter().enumerate() {
        let at = 144 + 56 * k;
        table[at] = clause.conditions.len() as u8;
        table[at + 1] = clause.alternatives.len() as u8;
        table[at + 2] = clause.variables().len() as u8;
        put(&mut table, at + 4, ticket.instances(clause));
        put(&mut table, at + 6, marks);
        marks += ticket.marks(clause);
        for (first, atoms) in [(at + 8, &clause.conditions), (at + 32, &clause.alternatives)] {
            for (i, atom) in atoms.iter().enumerate() {
                let slot = first + 6 * i;
                table[slot] = atom.predicate;
                table[slot + 1..][..atom.arguments.len()].copy_from_slice(&atom.arguments);
                put(&mut table, slot + 4, ticket.first_atom(atom.predicate as usize));
            }
        }
    }
    table
}

/// A number of two bytes, the low one first.
fn put(table: &mut [u8], at: usize, number: u64) {
    table[at..at + 2].copy_from_slice(&(number as u16).to_le_bytes());
}

/// The ticket that a table's counts, arities and atoms name; the derived numbers are not looked at.
/// None where a count is out of range or a predicate is unknown: no text reads to such a table.
fn decode(table: &[u8]) -> Option<Ticket> {
    let (predicates, clauses) = (table[1] as usize, table[2] as usize);
    if predicates > MOST_PREDICATES || clauses > MOST_CLAUSES {
        return None;
    }
    let arities: Vec<u8> = (0..predicates).map(|j| table[16 + 4 * j]).collect();
    if arities.iter().any(|arity| *arity > 3) {
        return None;
    }
    let atoms = |at: usize, many: u8| -> Option<Vec<Atom>> {
        let slots = (0..many as usize).map(|i| &table[at + 6 * i..][..6]);
        slots.map(|slot| Some(Atom { predicate: slot[0], arguments: slot[1..][..*arities.get(slot[0] as usize)? as usize].to_vec() })).collect()
    };
    let clause = |k: usize| -> Option<Clause> {
        let at = 144 + 56 * k;
        let (n, m) = (table[at], table[at + 1]);
        if n > 4 || m > 4 {
            return None;
        }
        Some(Clause { conditions: atoms(at + 8, n)?, alternatives: atoms(at + 32, m)? })
    };
    let clauses = (0..clauses).map(clause).collect::<Option<_>>()?;
    let limit = [table[4], table[5], table[6], table[7]];
    Some(Ticket { constants: table[0], limit, arities: arities.clone(), clauses })
}

/// The ticket that some text reads to these 4,096 bytes by, if there is one.
pub fn ticket_in(table: &[u8]) -> Option<Ticket> {
    let ticket = read(&print(&decode(table)?)).ok()?;
    (encode(&ticket) == table).then_some(ticket)
}

/// The text that reads to these 4,096 bytes, if there is one.
pub fn write(table: &[u8]) -> Option<Vec<u8>> {
    ticket_in(table).map(|ticket| print(&ticket))
}
