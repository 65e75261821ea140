//! What a Rust programmer would write to read a ticket quickly: one pass over the text, no heap, and
//! the same table and the same answers as the library. The benchmark's measure.

const TABLE: usize = 4096;
const FOREIGN: u8 = 0xFF;

/// The value of each digit, FOREIGN for every other byte.
const VALUES: [u8; 256] = {
    let mut values = [FOREIGN; 256];
    let mut i = 0;
    while i < 16 {
        values[b"0123456789ABCDEF"[i] as usize] = i as u8;
        i += 1;
    }
    values
};

#[derive(Clone, Copy, PartialEq)]
enum Stage {
    First,
    Predicates,
    Clauses,
    Ended,
}

struct Reading {
    table: [u8; TABLE],
    stage: Stage,
    predicates: usize,
    atoms: u32,
    marks: u32,
}

/// Reads a text into a table of at least 4,096 bytes: 0, or the refusal with its line, packed.
pub fn read(text: &[u8], table: &mut [u8]) -> u64 {
    if table.len() < TABLE {
        return 11;
    }
    let mut reading = Reading { table: [0; TABLE], stage: Stage::First, predicates: 0, atoms: 0, marks: 0 };
    let (mut rest, mut line) = (text, 1);
    while !rest.is_empty() {
        let Some(end) = rest.iter().position(|byte| *byte == b'\n') else { return refused(1, line) };
        if let Err(number) = reading.line(&rest[..end]) {
            return refused(number, line);
        }
        rest = &rest[end + 1..];
        line += 1;
    }
    if reading.stage != Stage::Ended {
        return refused(2, line);
    }
    table[..TABLE].copy_from_slice(&reading.table);
    0
}

fn refused(number: u8, line: u64) -> u64 {
    number as u64 | line << 32
}

/// The bytes of a frame, and how many were taken.
struct Frame<'a>(&'a [u8]);

impl Frame<'_> {
    #[inline]
    fn next(&mut self) -> Result<u8, u8> {
        let (byte, rest) = self.0.split_first().ok_or(3)?;
        self.0 = rest;
        Ok(*byte)
    }

    #[inline]
    fn count(&mut self, least: u8, most: u8) -> Result<u8, u8> {
        let count = self.next()?;
        if (least..=most).contains(&count) { Ok(count) } else { Err(5) }
    }

    fn done(&self) -> Result<(), u8> {
        if self.0.is_empty() { Ok(()) } else { Err(3) }
    }
}

impl Reading {
    fn line(&mut self, line: &[u8]) -> Result<(), u8> {
        if line.is_empty() || line.len() % 2 == 1 || line.len() > 70 {
            return Err(1);
        }
        let mut bytes = [0; 35];
        let mut seen = 0;
        for (byte, pair) in bytes.iter_mut().zip(line.chunks_exact(2)) {
            let (high, low) = (VALUES[pair[0] as usize], VALUES[pair[1] as usize]);
            seen |= high | low;
            *byte = high << 4 | low;
        }
        if seen == FOREIGN {
            return Err(1);
        }
        let frame = Frame(&bytes[1..line.len() / 2]);
        match (bytes[0], self.stage) {
            (0x01, Stage::First) => self.header(frame),
            (0x02, Stage::Predicates) => self.predicate(frame),
            (0x03, Stage::Clauses) => self.clause(frame),
            (0xFF, Stage::Clauses) => self.end(frame),
            _ => Err(2),
        }
    }

    fn header(&mut self, mut frame: Frame) -> Result<(), u8> {
        if frame.next()? != 1 {
            return Err(4);
        }
        self.table[0] = frame.count(0, 32)?;
        self.table[1] = frame.count(1, 32)?;
        for at in 4..8 {
            self.table[at] = frame.next()?;
        }
        self.stage = Stage::Predicates;
        frame.done()
    }

    fn predicate(&mut self, mut frame: Frame) -> Result<(), u8> {
        let arity = frame.count(0, 3)?;
        frame.done()?;
        let at = 16 + 4 * self.predicates;
        self.table[at] = arity;
        self.put(at + 1, self.atoms);
        self.atoms += (self.table[0] as u32).pow(arity as u32);
        if self.atoms > 1024 {
            return Err(9);
        }
        self.put(8, self.atoms);
        self.predicates += 1;
        if self.predicates == self.table[1] as usize {
            self.stage = Stage::Clauses;
        }
        Ok(())
    }

    fn clause(&mut self, mut frame: Frame) -> Result<(), u8> {
        if self.table[2] == 64 {
            return Err(5);
        }
        let at = 144 + 56 * self.table[2] as usize;
        let n = frame.count(0, 4)?;
        let m = frame.count(0, 4)?;
        let mut variables = 0;
        for i in 0..n as usize {
            self.atom(&mut frame, at + 8 + 6 * i, &mut variables)?;
        }
        let bound = variables;
        for i in 0..m as usize {
            self.atom(&mut frame, at + 32 + 6 * i, &mut variables)?;
        }
        frame.done()?;
        if variables > bound {
            return Err(8);
        }
        let instances = (self.table[0] as u32).pow(variables as u32);
        self.table[at..at + 3].copy_from_slice(&[n, m, variables]);
        self.put(at + 4, instances);
        self.put(at + 6, self.marks);
        self.marks += n as u32 * instances;
        if self.marks > 16384 {
            return Err(10);
        }
        self.table[2] += 1;
        Ok(())
    }

    #[inline]
    fn atom(&mut self, frame: &mut Frame, slot: usize, variables: &mut u8) -> Result<(), u8> {
        let predicate = frame.next()?;
        if predicate >= self.table[1] {
            return Err(6);
        }
        let described = 16 + 4 * predicate as usize;
        self.table[slot] = predicate;
        for i in 1..=self.table[described] as usize {
            let argument = frame.next()?;
            match argument {
                0x00..=0x1F if argument < self.table[0] => {}
                0x80..=0x83 if argument - 0x80 < *variables => {}
                0x80..=0x83 if argument - 0x80 == *variables => *variables += 1,
                0x80..=0x83 => return Err(7),
                _ => return Err(6),
            }
            self.table[slot + i] = argument;
        }
        self.table[slot + 4] = self.table[described + 1];
        self.table[slot + 5] = self.table[described + 2];
        Ok(())
    }

    fn end(&mut self, mut frame: Frame) -> Result<(), u8> {
        if frame.next()? != self.table[2] {
            return Err(5);
        }
        self.stage = Stage::Ended;
        frame.done()
    }

    fn put(&mut self, at: usize, number: u32) {
        self.table[at..at + 2].copy_from_slice(&(number as u16).to_le_bytes());
    }
}
