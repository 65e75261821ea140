//! The library's rewriting and that of document 01, laid out by the library's layout of the rules, on many random tickets: the
//! rules read back, their number and every byte of both buffers must agree. Usage: rewrite [NUMBER OF CALLS]. The same calls in
//! every run.
mod library;
mod logic;
mod magic;
mod memory;
mod random;
mod reference;
mod report;
mod rules;
mod tickets;
mod walk;
mod worked;

use library::packed;
use magic::rewritten;
use memory::{less_than, same_bytes, Memory};
use random::Random;
use reference::{Ticket, NO_TABLE, RULES, SHORT_BUFFER, TABLE};
use report::{dump, same_answer, Report};
use rules::same_rules;

const DEFAULT_CALLS: u64 = 50_000;

struct Run {
    random: Random,
    calls: u64,
    rewritten: u64,
    most: usize,
    refused: [u64; 2],
}

fn main() {
    let calls = match std::env::args().nth(1) {
        Some(word) => word.parse().expect("the number of calls"),
        None => DEFAULT_CALLS,
    };
    let mut run = Run { random: Random::new(401), calls: 0, rewritten: 0, most: 0, refused: [0; 2] };
    if let Err(report) = run.all(calls) {
        fail(&report);
    }
    println!("rewritten: {}, into {} rules at most; refused 11: {}, 31: {}", run.rewritten, run.most, run.refused[0], run.refused[1]);
    if run.most < 100 || run.refused.contains(&0) {
        fail("one of these was too rare");
    }
    println!("rewrite: {} calls, all agree", run.calls);
}

fn fail(report: &str) -> ! {
    println!("{report}");
    println!("rewrite: FAILED");
    std::process::exit(1);
}

impl Run {
    fn all(&mut self, calls: u64) -> Result<(), Report> {
        for worked in worked::worked() {
            self.rewriting(&reference::read(worked.text.as_bytes()).expect("a worked ticket"))?;
        }
        while self.calls < calls {
            self.step()?;
        }
        Ok(())
    }

    fn step(&mut self) -> Result<(), Report> {
        let ticket = match self.random.below(8) {
            0 => tickets::full(&mut self.random),
            1..=3 => tickets::to_walk(&mut self.random),
            _ => tickets::ticket(&mut self.random),
        };
        let table = reference::encode(&ticket);
        let accepted = reference::read(&reference::print(&ticket)).is_ok();
        if accepted {
            self.rewriting(&ticket)?;
        }
        self.refusals(&table, accepted)?;
        let damaged = tickets::damaged(&mut self.random, &table);
        self.refusals(&damaged, reference::ticket_in(&damaged).is_some())
    }

    /// A call that is not refused.
    fn rewriting(&mut self, ticket: &Ticket) -> Result<(), Report> {
        let rules = rewritten(ticket);
        let many = rules::count(&rules);
        let (table, before) = self.lent(&reference::encode(ticket));
        let after = before.beginning_with(&rules::laid_out(ticket, &rules));
        self.rewritten += 1;
        self.most = self.most.max(many);
        let left = self.call(&table, &before, packed(0, many as u32))?;
        same_rules(&rules, &ticket.arities, left.lent())?;
        same_bytes("rules", &after, &left, || about(&table, &before))
    }

    /// Refusals: a table that no text reads to, and a buffer too short, whatever the table.
    fn refusals(&mut self, bytes: &[u8], is_table: bool) -> Result<(), Report> {
        let (mut table, mut rules) = self.lent(bytes);
        if !is_table {
            self.refusal(&table, &rules, NO_TABLE)?;
        }
        let which = self.random.below(3);
        if which != 0 {
            table = table.truncated(less_than(&mut self.random, TABLE));
        }
        if which != 1 {
            rules = rules.truncated(less_than(&mut self.random, RULES));
        }
        self.refusal(&table, &rules, SHORT_BUFFER)
    }

    fn refusal(&mut self, table: &Memory, rules: &Memory, number: u8) -> Result<(), Report> {
        self.refused[(number == NO_TABLE) as usize] += 1;
        let left = self.call(table, rules, packed(number, 0))?;
        same_bytes("rules", rules, &left, || about(table, rules))
    }

    /// One call by the library, which must leave the table: how it leaves the rules.
    fn call(&mut self, table: &Memory, before: &Memory, answer: u64) -> Result<Memory, Report> {
        self.calls += 1;
        let (read, mut rules) = (table.clone(), before.clone());
        let found = library::rewrite(read.lent(), rules.lent_mut());
        same_answer(answer, found, || about(table, before))?;
        same_bytes("table", table, &read, || about(table, before))?;
        Ok(rules)
    }

    /// Buffers that are long enough, or longer, with any bytes in them but for the table.
    fn lent(&mut self, table: &[u8]) -> (Memory, Memory) {
        let random = &mut self.random;
        let mut buffer = |required: usize| {
            let len = required + random.pick(&[0, 0, 1, 2, 57]);
            Memory::random(random, len)
        };
        (buffer(TABLE).beginning_with(table), buffer(RULES))
    }
}

fn about(table: &Memory, rules: &Memory) -> String {
    format!("table and rules of {} and {} bytes\n{}", table.lent().len(), rules.lent().len(), dump(table.lent()))
}
