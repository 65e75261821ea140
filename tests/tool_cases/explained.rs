//! The words of `read` and of `add`, on many random texts, and on a rule for each that is accepted: the fault that the tool finds must be the one that the
//! library names, by number and line, and a text that the library accepts must give a ticket that is written as this text; so must the table of a ticket that
//! the rule is set in. Usage: explained [NUMBER OF TEXTS].
#[path = "../../tool/clause.rs"]
mod clause;
#[path = "../../tool/frame.rs"]
mod frame;
#[path = "../library.rs"]
mod library;
#[path = "../mangle.rs"]
mod mangle;
#[path = "../../tool/parse.rs"]
mod parse;
#[path = "../random.rs"]
mod random;
#[path = "../reference.rs"]
mod reference;
#[path = "../report.rs"]
mod report;
#[path = "../../tool/spell.rs"]
#[allow(dead_code)] // nothing foreign is printed
mod spell;
#[path = "../threads.rs"]
mod threads;
#[path = "../../tool/ticket.rs"]
#[allow(dead_code)] // of a ticket only the text is asked for
mod ticket;
#[path = "../tickets.rs"]
mod tickets;

use library::packed;
use random::Random;
use report::{same, same_answer, Report};
use threads::{add_each, row, Run, Tally};

const TEXTS: u64 = 200_000;

fn main() {
    threads::run("explained", TEXTS, 11, run);
}

fn run(run: &mut Run<Met>, texts: u64) -> Result<(), Report> {
    while run.tally.texts() < texts {
        let text = text(&mut run.random);
        let told = |report: Report| format!("{report}\n{}", text.escape_ascii());
        let number = compare(&text).map_err(told)?;
        run.tally.numbers[number as usize] += 1;
        if let (0, Ok(ticket)) = (number, parse::parse(&text)) {
            let frame = frame(&mut run.random, &text);
            let told = |report: Report| format!("{report}\n{frame:02X?} for {}", text.escape_ascii());
            run.tally.rules[offered(&text, &ticket, &frame).map_err(told)? as usize] += 1;
        }
    }
    Ok(())
}

/// A clause line's bytes for the ticket of a text, mostly with something changed, cut off or after them.
fn frame(random: &mut Random, text: &[u8]) -> Vec<u8> {
    let ticket = reference::read(text).expect("the text is accepted");
    let mut frame = reference::clause_frame(&tickets::next_clause(random, &ticket));
    let at = random.within(1, frame.len() - 1);
    match random.below(6) {
        0..=1 => {}
        2..=3 => frame[at] = random.pick(&[0, 1, 4, 5, 0x1F, 0x20, 0x80, 0x81, 0x82, 0x83, 0x84, 0xFF]),
        4 => frame.truncate(at),
        _ => frame.resize(frame.len() + random.pick(&[1, 2, 33, 300]), 0),
    }
    frame
}

/// The number by which a rule is refused, or 0.
fn offered(text: &[u8], ticket: &ticket::Ticket, frame: &[u8]) -> Result<u8, Report> {
    let (mut table, mut slip, mut out) = ([0; reference::TABLE], [0; reference::SLIP], [0; reference::TEXT_OUT]);
    library::read(text, &mut table);
    let answer = library::offer(&table, frame, &mut slip);
    match clause::with_clause(ticket, frame) {
        Ok(longer) => {
            same_answer(answer, 0, || "taken by the tool".to_string())?;
            same("setting", 0, library::set(&mut table, &slip))?;
            let len = library::write(&table, &mut out) >> 32;
            same("the longer text", &longer.text()[..], &out[..len as usize])?;
            Ok(0)
        }
        Err(fault) => {
            same_answer(answer, packed(fault.number, 0), || fault.words.clone())?;
            same("digits of the rule", true, fault.digits.is_none_or(|digits| digits.end <= 2 * frame.len() + 2))?;
            Ok(fault.number)
        }
    }
}

/// The text of a ticket, mostly damaged.
fn text(random: &mut Random) -> Vec<u8> {
    let mut ticket = tickets::ticket(random);
    if random.once_in(4) {
        tickets::spoil(random, &mut ticket);
    }
    let mut text = reference::print(&ticket);
    for _ in 0..random.below(3) {
        mangle::mangle(random, &mut text);
    }
    text
}

/// The number of the fault, or 0.
fn compare(text: &[u8]) -> Result<u8, Report> {
    let answer = library::read(text, &mut [0; reference::TABLE]);
    match parse::parse(text) {
        Ok(ticket) => {
            same_answer(answer, packed(0, 0), || "accepted by the tool".to_string())?;
            same("text written", text, &ticket.text())?;
            Ok(0)
        }
        Err((line, fault)) => {
            same_answer(answer, packed(fault.number, line as u32), || fault.words.clone())?;
            let longest = text.split(|byte| *byte == b'\n').nth(line - 1).map_or(0, <[u8]>::len) + 2;
            same("digits on the line", true, fault.digits.is_none_or(|digits| digits.end <= longest))?;
            Ok(fault.number)
        }
    }
}

/// How often a text was accepted, and refused by each number; and likewise a rule.
#[derive(Default)]
struct Met {
    numbers: [u64; 11],
    rules: [u64; 11],
}

impl Met {
    fn texts(&self) -> u64 {
        self.numbers.iter().sum()
    }
}

impl Tally for Met {
    fn add(&mut self, other: &Met) {
        add_each(&mut self.numbers, &other.numbers);
        add_each(&mut self.rules, &other.rules);
    }

    fn print(&self) {
        println!("texts accepted, and refused by 1 to 10:\n{}", row(&self.numbers));
        println!("rules that can be added, and refused by 1 to 10:\n{}", row(&self.rules));
    }

    fn missing(&self) -> Vec<String> {
        let never = (0..self.numbers.len()).filter(|number| self.numbers[*number] == 0).map(|number| format!("refusal {number}"));
        let of_rules = [0, 3, 5, 6, 7, 8, 10].into_iter().filter(|number| self.rules[*number] == 0).map(|number| format!("refusal {number} of a rule"));
        never.chain(of_rules).collect()
    }

    fn agreed(&self) -> String {
        format!("{} texts", self.texts())
    }
}
