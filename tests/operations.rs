//! The library's eighteen operations: which buffers each is lent, and a call of which every lent byte is compared.
#![allow(dead_code)] // each program uses its own part

use crate::library::{self, SESSION};
use crate::memory::{same_bytes, Memory};
use crate::reference::{ANSWER, RULES, SLIP, TABLE, TEXT_OUT, WORK};
use crate::report::{dump, same_answer, Report};
use std::ops::{Index, IndexMut};
use Buffer::*;

#[derive(Clone, Copy, Debug, PartialEq, Eq, PartialOrd, Ord)]
pub enum Operation {
    Read,
    Write,
    Offer,
    Set,
    Rewrite,
    FitRelevancy,
    FitMagic,
    FitStaged,
    Judge,
    Holding,
    BeginRelevancy,
    BeginMagic,
    ResumeRelevancy,
    ResumeMagic,
    AssumeRelevancy,
    AssumeMagic,
    PartsRelevancy,
    PartsMagic,
}

pub const OPERATIONS: [Operation; 18] = [
    Operation::Read,
    Operation::Write,
    Operation::Offer,
    Operation::Set,
    Operation::Rewrite,
    Operation::FitRelevancy,
    Operation::FitMagic,
    Operation::FitStaged,
    Operation::Judge,
    Operation::Holding,
    Operation::BeginRelevancy,
    Operation::BeginMagic,
    Operation::ResumeRelevancy,
    Operation::ResumeMagic,
    Operation::AssumeRelevancy,
    Operation::AssumeMagic,
    Operation::PartsRelevancy,
    Operation::PartsMagic,
];

#[derive(Clone, Copy, Debug, PartialEq, Eq, PartialOrd, Ord)]
pub enum Buffer {
    Text,
    Table,
    TextOut,
    Rules,
    Answer,
    Work,
    Frame,
    Slip,
    Session,
    Facts,
    First,
    Second,
    Count,
}

pub const BUFFERS: [Buffer; 13] = [Text, Table, TextOut, Rules, Answer, Work, Frame, Slip, Session, Facts, First, Second, Count];

/// How many bytes a number has, of the facts or of a run's count; and the sum of counts.
pub const NUMBER: usize = 4;
const SUM: usize = 8;

impl Buffer {
    /// The bytes that it must have at least. A text and a frame may have any length, facts that of any numbers; a session and a count have no other
    /// than their own.
    pub fn required(self) -> usize {
        [0, TABLE, TEXT_OUT, RULES, ANSWER, WORK, 0, SLIP, SESSION, 0, NUMBER, NUMBER, SUM][self as usize]
    }

    /// Whether it is lent as numbers, or by its address, and not as bytes of any length.
    pub fn is_of_numbers(self) -> bool {
        matches!(self, Session | Facts | First | Second | Count)
    }
}

impl Operation {
    pub fn buffers(self) -> &'static [Buffer] {
        match self {
            Operation::Read => &[Text, Table],
            Operation::Write => &[Table, TextOut],
            Operation::Offer => &[Table, Frame, Slip],
            Operation::Set => &[Table, Slip],
            Operation::Rewrite => &[Table, Rules],
            Operation::FitRelevancy | Operation::FitStaged => &[Table, Answer, Work],
            Operation::FitMagic => &[Table, Rules, Answer, Work],
            Operation::Judge | Operation::Holding => &[Table, Answer],
            Operation::BeginRelevancy | Operation::ResumeRelevancy => &[Session, Table, Answer, Work],
            Operation::BeginMagic | Operation::ResumeMagic => &[Session, Table, Rules, Answer, Work],
            Operation::AssumeRelevancy => &[Table, Facts, First, Second, Answer, Work],
            Operation::AssumeMagic => &[Table, Facts, First, Second, Rules, Answer, Work],
            Operation::PartsRelevancy => &[Table, Count, Answer, Work],
            Operation::PartsMagic => &[Table, Count, Rules, Answer, Work],
        }
    }

    pub fn resumes(self) -> bool {
        matches!(self, Operation::ResumeRelevancy | Operation::ResumeMagic)
    }
}

/// What a call is given: lent buffers, of which those that its operation is not lent do not matter; an instance by clause and the values of
/// 80, 81, 82, 83, which is for holding alone; and a further limit, for going on with a session.
#[derive(Clone)]
pub struct Lent {
    pub buffers: [Memory; 13],
    pub clause: u32,
    pub values: [u32; 4],
    pub further: u32,
}

impl Index<Buffer> for Lent {
    type Output = Memory;

    fn index(&self, buffer: Buffer) -> &Memory {
        &self.buffers[buffer as usize]
    }
}

impl IndexMut<Buffer> for Lent {
    fn index_mut(&mut self, buffer: Buffer) -> &mut Memory {
        &mut self.buffers[buffer as usize]
    }
}

impl Lent {
    pub fn is_too_short(&self, operation: Operation) -> bool {
        operation.buffers().iter().any(|buffer| self[*buffer].lent().len() < buffer.required())
    }

    /// The facts lent.
    pub fn facts(&self) -> Vec<u32> {
        self[Facts].lent().chunks(NUMBER).map(|bytes| u32::from_le_bytes(bytes.try_into().expect("whole numbers"))).collect()
    }

    /// The library's answer, and what it leaves in the buffers.
    fn call(&mut self, operation: Operation) -> u64 {
        let [text, table, out, rules, answer, work, frame, slip, session, facts, first, second, count] = &mut self.buffers;
        let further = self.further;
        match operation {
            Operation::Read => library::read(text.lent(), table.lent_mut()),
            Operation::Write => library::write(table.lent(), out.lent_mut()),
            Operation::Offer => library::offer(table.lent(), frame.lent(), slip.lent_mut()),
            Operation::Set => library::set(table.lent_mut(), slip.lent()),
            Operation::Rewrite => library::rewrite(table.lent(), rules.lent_mut()),
            Operation::FitRelevancy => library::fit_relevancy(table.lent(), answer.lent_mut(), work.lent_mut()),
            Operation::FitMagic => library::fit_magic(table.lent(), rules.lent_mut(), answer.lent_mut(), work.lent_mut()),
            Operation::FitStaged => library::fit_staged(table.lent(), answer.lent_mut(), work.lent_mut()),
            Operation::Judge => library::judge(table.lent(), answer.lent()),
            Operation::Holding => library::holding(table.lent(), answer.lent(), self.clause, self.values),
            Operation::BeginRelevancy => library::begin_relevancy(session_in(session), table.lent(), answer.lent_mut(), work.lent_mut()),
            Operation::BeginMagic => library::begin_magic(session_in(session), table.lent(), rules.lent_mut(), answer.lent_mut(), work.lent_mut()),
            Operation::ResumeRelevancy => library::resume_relevancy(session_in(session), further, table.lent(), answer.lent_mut(), work.lent_mut()),
            Operation::ResumeMagic => {
                library::resume_magic(session_in(session), further, table.lent(), rules.lent_mut(), answer.lent_mut(), work.lent_mut())
            }
            Operation::AssumeRelevancy => {
                library::assume_relevancy(table.lent(), numbers_in(facts), [number_in(first), number_in(second)], answer.lent(), work.lent_mut())
            }
            Operation::AssumeMagic => {
                let counts = [number_in(first), number_in(second)];
                library::assume_magic(table.lent(), numbers_in(facts), counts, rules.lent_mut(), answer.lent(), work.lent_mut())
            }
            Operation::PartsRelevancy => library::parts_relevancy(table.lent(), sum_in(count), answer.lent_mut(), work.lent_mut()),
            Operation::PartsMagic => library::parts_magic(table.lent(), sum_in(count), rules.lent_mut(), answer.lent_mut(), work.lent_mut()),
        }
    }

    /// A call by the library, which must give this answer and leave these bytes, in the buffers and around them.
    pub fn agrees(&self, operation: Operation, answer: u64, left: &Lent) -> Result<(), Report> {
        let mut lent = self.clone();
        let about = || self.about(operation);
        same_answer(answer, lent.call(operation), about)?;
        for buffer in operation.buffers() {
            same_bytes(&format!("{buffer:?}"), &left[*buffer], &lent[*buffer], about)?;
        }
        Ok(())
    }

    fn about(&self, operation: Operation) -> String {
        let lens: Vec<String> = operation.buffers().iter().map(|buffer| format!("{buffer:?} of {}", self[*buffer].lent().len())).collect();
        let source = match operation {
            Operation::Read => format!("{}\n", self[Text].lent().escape_ascii()),
            Operation::Offer => format!("frame {:02X?}\n{}", self[Frame].lent(), dump(self[Table].lent())),
            Operation::Set => format!("slip {:02X?}\n{}", self[Slip].lent(), dump(self[Table].lent())),
            Operation::AssumeRelevancy | Operation::AssumeMagic => format!("facts {:?}\n{}", self.facts(), dump(self[Table].lent())),
            Operation::Holding => format!("clause {} with {:?}\n{}", self.clause, self.values, dump(self[Table].lent())),
            _ if operation.resumes() => format!("further {}, session\n{}table\n{}", self.further, dump(self[Session].lent()), dump(self[Table].lent())),
            _ => dump(self[Table].lent()),
        };
        format!("{operation:?} with {} bytes\n{source}", lens.join(", "))
    }
}

/// The session whose bytes a buffer has, where it stands amid the others. It has numbers alone, so any bytes are one.
fn session_in(memory: &mut Memory) -> &mut library::Session {
    let (before, sessions, after) = unsafe { memory.lent_mut().align_to_mut() };
    assert!(before.is_empty() && sessions.len() == 1 && after.is_empty(), "the buffer of a session is aligned and has its length");
    &mut sessions[0]
}

/// The numbers whose bytes a buffer has, where they stand.
fn numbers_in(memory: &mut Memory) -> &mut [u32] {
    let (before, numbers, after) = unsafe { memory.lent_mut().align_to_mut() };
    assert!(before.is_empty() && after.is_empty(), "a buffer of numbers is aligned and has whole ones");
    numbers
}

fn number_in(memory: &mut Memory) -> &mut u32 {
    &mut numbers_in(memory)[0]
}

fn sum_in(memory: &mut Memory) -> &mut u64 {
    let (before, sums, after) = unsafe { memory.lent_mut().align_to_mut() };
    assert!(before.is_empty() && sums.len() == 1 && after.is_empty(), "the buffer of a sum is aligned and has its length");
    &mut sums[0]
}
