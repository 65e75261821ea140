//! The library and the reference on many random texts and tables: answers and every byte of every
//! buffer must agree. Usage: read_write [NUMBER OF TEXTS]. The same texts in every run.
mod library;
mod mangle;
mod memory;
mod random;
mod reference;
mod refusals;
mod report;
mod threads;
mod tickets;

use library::packed;
use memory::{less_than, same_bytes, Memory};
use reference::{NO_TABLE, SHORT_BUFFER, TABLE, TEXT_OUT};
use refusals::Refusals;
use report::{dump, same_answer, Report};
use threads::Run;

const TEXTS: u64 = 1_200_000;

fn main() {
    threads::run("read_write", TEXTS, 1, run);
}

fn run(run: &mut Run<Refusals>, texts: u64) -> Result<(), Report> {
    for table in [[0x00; TABLE], [0xFF; TABLE]] {
        run.writing(&table)?;
    }
    while run.tally.texts < texts {
        run.step()?;
    }
    Ok(())
}

impl Run<Refusals> {
    /// A ticket, whole or with one thing changed (then its table is tried too), and its text, whole or damaged.
    fn step(&mut self) -> Result<(), Report> {
        let mut ticket = tickets::ticket(&mut self.random);
        let spoilt = self.random.once_in(4);
        if spoilt {
            tickets::spoil(&mut self.random, &mut ticket);
            self.writing(&reference::encode(&ticket))?;
        }
        let mut text = reference::print(&ticket);
        if !spoilt && self.random.below(8) < 5 {
            for _ in 0..self.random.pick(&[1, 1, 1, 1, 2, 3]) {
                mangle::mangle(&mut self.random, &mut text);
            }
        }
        self.text(&text)
    }

    /// All about one text: reading it, and if it is accepted, writing and reading again.
    fn text(&mut self, text: &[u8]) -> Result<(), Report> {
        self.tally.texts += 1;
        if self.random.once_in(16) {
            self.reading_into_too_little(text)?;
        }
        let Some(table) = self.reading(text)? else { return Ok(()) };
        self.tally.acceptance(text);
        let written = self.writing(&table)?;
        if written.as_deref() != Some(text) {
            return Err(format!("the table does not give back its text\n{}", shown(text)));
        }
        if self.random.once_in(2) {
            let damaged = tickets::damaged(&mut self.random, &table);
            let written = self.writing(&damaged)?;
            self.tally.other_tables += (written.is_some() && damaged != table) as u64;
        }
        if self.random.once_in(8) {
            self.writing_with_too_little(&table)?;
        }
        Ok(())
    }

    /// One reading by the library. The table that it leaves, if it accepts.
    fn reading(&mut self, text: &[u8]) -> Result<Option<Vec<u8>>, Report> {
        let len = TABLE + self.random.pick(&[0, 0, 1, 2, 57, 1000]);
        let before = Memory::random(&mut self.random, len);
        let (answer, after) = match reference::read(text) {
            Ok(ticket) => (packed(0, 0), before.beginning_with(&reference::encode(&ticket))),
            Err(refusal) => {
                self.tally.refusal(refusal.number, refusal.line);
                (packed(refusal.number, refusal.line), before.clone())
            }
        };
        self.read_and_compare(text, before, answer, &after)?;
        Ok((answer == 0).then(|| after.lent()[..TABLE].to_vec()))
    }

    fn reading_into_too_little(&mut self, text: &[u8]) -> Result<(), Report> {
        let len = less_than(&mut self.random, TABLE);
        let before = Memory::random(&mut self.random, len);
        self.tally.refusal(SHORT_BUFFER, 0);
        self.read_and_compare(text, before.clone(), packed(SHORT_BUFFER, 0), &before)
    }

    fn read_and_compare(&mut self, text: &[u8], mut table: Memory, answer: u64, after: &Memory) -> Result<(), Report> {
        let source = Memory::holding(&mut self.random, text);
        let source_before = source.clone();
        let found = library::read(source.lent(), table.lent_mut());
        let about = || format!("reading, table of {} bytes\n{}", after.lent().len(), shown(text));
        same_answer(answer, found, about)?;
        same_bytes("table", after, &table, about)?;
        same_bytes("text", &source_before, &source, about)
    }

    /// One writing by the library. The text that it gives, if the bytes are a table.
    fn writing(&mut self, table: &[u8]) -> Result<Option<Vec<u8>>, Report> {
        let len = TEXT_OUT + self.random.pick(&[0, 0, 1, 2, 57, 1000]);
        let before = Memory::random(&mut self.random, len);
        let text = reference::write(table);
        let (answer, after) = match &text {
            Some(text) => (packed(0, text.len() as u32), before.beginning_with(text)),
            None => {
                self.tally.refusal(NO_TABLE, 0);
                (packed(NO_TABLE, 0), before.clone())
            }
        };
        let beyond = self.random.pick(&[0, 0, 1, 100]);
        let mut lent = table.to_vec();
        lent.extend((0..beyond).map(|_| self.random.byte()));
        self.write_and_compare(&lent, before, answer, &after)?;
        if let Some(text) = &text {
            self.reads_back(&after.lent()[..text.len()], table)?;
        }
        Ok(text)
    }

    /// What was written reads to the table that it was written from.
    fn reads_back(&mut self, text: &[u8], table: &[u8]) -> Result<(), Report> {
        let before = Memory::random(&mut self.random, TABLE);
        let after = before.beginning_with(table);
        self.read_and_compare(text, before, packed(0, 0), &after)
    }

    /// A short table, a short text, or both: whatever the bytes are, it is 11.
    fn writing_with_too_little(&mut self, table: &[u8]) -> Result<(), Report> {
        let mut lent = if self.random.once_in(4) { tickets::damaged(&mut self.random, table) } else { table.to_vec() };
        let mut len = less_than(&mut self.random, TEXT_OUT);
        match self.random.below(3) {
            0 => lent.truncate(less_than(&mut self.random, TABLE)),
            1 => {
                lent.truncate(less_than(&mut self.random, TABLE));
                len = TEXT_OUT;
            }
            _ => {}
        }
        let before = Memory::random(&mut self.random, len);
        self.tally.refusal(SHORT_BUFFER, 0);
        self.write_and_compare(&lent, before.clone(), packed(SHORT_BUFFER, 0), &before)
    }

    fn write_and_compare(&mut self, table: &[u8], mut out: Memory, answer: u64, after: &Memory) -> Result<(), Report> {
        let source = Memory::holding(&mut self.random, table);
        let source_before = source.clone();
        let found = library::write(source.lent(), out.lent_mut());
        let about = || format!("writing, text of {} bytes, table of {}:\n{}", after.lent().len(), table.len(), dump(table));
        same_answer(answer, found, about)?;
        same_bytes("text", after, &out, about)?;
        same_bytes("table", &source_before, &source, about)
    }
}

/// A text, a line to a line, foreign bytes escaped.
fn shown(text: &[u8]) -> String {
    text.split_inclusive(|byte| *byte == b'\n').map(|line| format!("  {}\n", line.escape_ascii())).collect()
}
