//! What each operation must answer and leave in every lent byte, by the implementation that is written from documents 01 and 02.

use crate::assume;
use crate::library::{fit, packed, said, violated, FITTING};
use crate::logic::{self, Judging};
use crate::magic::{rewritten, Magic};
use crate::operations::{Buffer, Lent, Operation};
use crate::parts::{self, parts};
use crate::reference::{self, Ticket, NO_TABLE, SHORT_BUFFER, SLIP, TABLE, WORK};
use crate::rules;
use crate::session::{self, Told};
use crate::slip;
use crate::stages::Staged;
use crate::walk::{walk, Engine, Outcome, Relevancy};

/// The answer, and what is left in the buffers.
pub fn expected(operation: Operation, lent: &Lent) -> (u64, Lent) {
    let mut left = lent.clone();
    if lent.is_too_short(operation) {
        return (packed(SHORT_BUFFER, 0), left);
    }
    if operation == Operation::Read {
        return (read(&mut left), left);
    }
    let answer = match reference::ticket_in(&lent[Buffer::Table].lent()[..TABLE]) {
        Some(ticket) => of_ticket(operation, &ticket, &mut left),
        None => packed(NO_TABLE, 0),
    };
    (answer, left)
}

fn read(lent: &mut Lent) -> u64 {
    match reference::read(lent[Buffer::Text].lent()) {
        Ok(ticket) => {
            begin(lent, Buffer::Table, &reference::encode(&ticket));
            packed(0, 0)
        }
        Err(refusal) => packed(refusal.number, refusal.line),
    }
}

/// Of an operation on the table of this ticket.
fn of_ticket(operation: Operation, ticket: &Ticket, lent: &mut Lent) -> u64 {
    match operation {
        Operation::Write => {
            let text = reference::print(ticket);
            begin(lent, Buffer::TextOut, &text);
            packed(0, text.len() as u32)
        }
        Operation::Offer => offer(ticket, lent),
        Operation::Set => set(ticket, lent),
        Operation::Rewrite => packed(0, rewrite(ticket, lent)),
        Operation::FitMagic => {
            rewrite(ticket, lent);
            fit_by(&Magic::new(&rewritten(ticket), ticket), ticket, lent)
        }
        Operation::FitStaged => staged(&walk(&Staged::new(ticket), u32::from_be_bytes(ticket.limit), &mut |_, _| {}), lent),
        Operation::FitRelevancy => fit_by(&Relevancy::new(ticket), ticket, lent),
        Operation::Holding => holding(ticket, lent),
        Operation::Judge => judge(ticket, lent),
        Operation::BeginRelevancy | Operation::ResumeRelevancy => with_session(operation, &Relevancy::new(ticket), ticket, lent),
        Operation::AssumeRelevancy | Operation::AssumeMagic => assume(operation, ticket, lent),
        Operation::PartsRelevancy | Operation::PartsMagic => {
            let told = parts::told(ticket, &parts(ticket), |_, part| run(operation, &part.ticket));
            parted(operation, &told, ticket, lent)
        }
        _ => with_session(operation, &Magic::new(&rewritten(ticket), ticket), ticket, lent),
    }
}

fn offer(ticket: &Ticket, lent: &mut Lent) -> u64 {
    match slip::offer(TABLE, SLIP, Some(ticket), lent[Buffer::Frame].lent()) {
        Ok(slip) => {
            begin(lent, Buffer::Slip, &slip);
            packed(0, 0)
        }
        Err(why) => packed(why.number(), 0),
    }
}

fn set(ticket: &Ticket, lent: &mut Lent) -> u64 {
    match slip::set(TABLE, Some(ticket), lent[Buffer::Slip].lent()) {
        Ok(longer) => {
            begin(lent, Buffer::Table, &reference::encode(&longer));
            packed(0, 0)
        }
        Err(why) => packed(why.number(), 0),
    }
}

/// Leaves the ticket's rules: how many there are.
fn rewrite(ticket: &Ticket, lent: &mut Lent) -> u32 {
    let rules = rewritten(ticket);
    begin(lent, Buffer::Rules, &rules::laid_out(ticket, &rules));
    rules::count(&rules) as u32
}

fn fit_by(engine: &dyn Engine, ticket: &Ticket, lent: &mut Lent) -> u64 {
    ended(&walk(engine, u32::from_be_bytes(ticket.limit), &mut |_, _| {}), lent)
}

/// What a walk that has ended so leaves in answer and work.
fn ended(outcome: &Outcome, lent: &mut Lent) -> u64 {
    let marks: Vec<u8> = outcome.fitting.iter().flatten().map(|is_in| *is_in as u8).collect();
    begin(lent, Buffer::Answer, &marks);
    begin(lent, Buffer::Work, &[0; WORK]);
    fit(outcome.verdict as u8, outcome.count, outcome.deepest)
}

/// What the staged engine gives and leaves, whose walk has ended so: it tells no deepest figure.
pub fn staged(outcome: &Outcome, lent: &mut Lent) -> u64 {
    ended(&Outcome { deepest: 0, ..outcome.clone() }, lent)
}

/// A first run, or going on with the session lent, by an engine.
pub fn with_session(operation: Operation, engine: &dyn Engine, ticket: &Ticket, lent: &mut Lent) -> u64 {
    let held = session::of_bytes(lent[Buffer::Session].lent());
    let said = if operation.resumes() { session::resumed(engine, &held, lent.further) } else { Ok(session::begun(engine, u32::from_be_bytes(ticket.limit))) };
    match said {
        Ok(told) => moved(operation, &told, ticket, lent),
        Err(refusal) => packed(refusal, 0),
    }
}

/// What such a call leaves that is not refused.
fn moved(operation: Operation, told: &Told, ticket: &Ticket, lent: &mut Lent) -> u64 {
    begin(lent, Buffer::Session, &session::bytes(&told.session));
    if operation.buffers().contains(&Buffer::Rules) {
        rewrite(ticket, lent);
    }
    ended(&told.outcome, lent)
}

/// With open facts: the second run, and after it the rules, are those of the ticket with them all.
fn assume(operation: Operation, ticket: &Ticket, lent: &mut Lent) -> u64 {
    let facts = lent.facts();
    if let Some(why) = assume::refused(ticket, &facts) {
        return packed(why.number(), 0);
    }
    let longer = assume::with_facts(ticket, &facts);
    let told = assume::told(&run(operation, ticket), || run(operation, &longer));
    assumed_so(operation, &told, if told.second_is_made { &longer } else { ticket }, lent)
}

/// A run of this ticket under its limit, by the operation's engine.
fn run(operation: Operation, ticket: &Ticket) -> Outcome {
    let limit = u32::from_be_bytes(ticket.limit);
    if operation.buffers().contains(&Buffer::Rules) {
        return walk(&Magic::new(&rewritten(ticket), ticket), limit, &mut |_, _| {});
    }
    walk(&Relevancy::new(ticket), limit, &mut |_, _| {})
}

/// What a call with open facts leaves that is not refused; its last run is that of this ticket.
pub fn assumed_so(operation: Operation, told: &assume::Told, last: &Ticket, lent: &mut Lent) -> u64 {
    begin(lent, Buffer::First, &told.counts[0].to_le_bytes());
    begin(lent, Buffer::Second, &told.counts[1].to_le_bytes());
    begin(lent, Buffer::Work, &[0; WORK]);
    if operation.buffers().contains(&Buffer::Rules) {
        rewrite(last, lent);
    }
    said(told.said as u8)
}

/// What a call by parts leaves that is not refused.
pub fn parted(operation: Operation, told: &parts::Told, ticket: &Ticket, lent: &mut Lent) -> u64 {
    let marks: Vec<u8> = told.fitting.iter().flatten().map(|is_in| *is_in as u8).collect();
    begin(lent, Buffer::Count, &told.count.to_le_bytes());
    begin(lent, Buffer::Answer, &marks);
    begin(lent, Buffer::Work, &[0; WORK]);
    if operation.buffers().contains(&Buffer::Rules) {
        rewrite(ticket, lent);
    }
    said(told.verdict as u8)
}

fn judge(ticket: &Ticket, lent: &Lent) -> u64 {
    match logic::judge(TABLE, Some(&logic::ground(ticket)), lent[Buffer::Answer].lent()) {
        Judging::Refused(number) => packed(number, 0),
        Judging::Fitting => FITTING,
        Judging::Violated(clause, values) => violated(clause, values),
    }
}

fn holding(ticket: &Ticket, lent: &Lent) -> u64 {
    match logic::holding(TABLE, Some(ticket), lent[Buffer::Answer].lent(), lent.clause, lent.values) {
        Ok(number) => packed(0, number),
        Err(refusal) => packed(refusal, 0),
    }
}

fn begin(lent: &mut Lent, buffer: Buffer, bytes: &[u8]) {
    lent[buffer].lent_mut()[..bytes.len()].copy_from_slice(bytes);
}
