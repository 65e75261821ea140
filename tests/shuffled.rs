//! Tickets shuffled by hand (02, U13): the clause lines in another order, the constants renumbered one to one, or both; by the tool's `compile --shuffle` and
//! by this test. Random tickets, small and large, under limits that are reached or not, are put to all three engines as they were and shuffled: whichever
//! engine says fits of any of them, none says none. What the tool shuffles must be the same ticket but for that. Usage: shuffled [NUMBER OF TICKETS].
#![allow(dead_code)] // of the tool only what shuffles and calls the library is asked for

#[path = "../tool/clause.rs"]
mod clause;
#[path = "../tool/ending.rs"]
mod ending;
#[path = "../tool/frame.rs"]
mod frame;
mod large;
#[path = "../tool/library.rs"]
mod library;
mod logic;
mod mix;
#[path = "../tool/parse.rs"]
mod parse;
mod random;
mod reference;
mod report;
#[path = "../tool/shuffle.rs"]
mod shuffle;
mod sizes;
#[path = "../tool/spell.rs"]
mod spell;
mod threads;
#[path = "../tool/ticket.rs"]
mod ticket;
mod tickets;
mod walk;

use ending::Failure;
use large::FAMILIES;
use library::{Engine, Fit, Stack, Verdict};
use random::Random;
use reference::{Atom, Clause, Ticket};
use report::{same, Report};
use shuffle::Shuffle;
use threads::{add_each, row, Run, Tally};

const TICKETS: u64 = 20_000;

/// Of so many tickets one is large.
const LARGE: usize = 50;

/// Bytes of stack for the staged engine, as include/lutsamik.h asks.
const STACK: usize = 1 << 20;

const ENGINES: [&str; 3] = ["relevancy", "magic", "staged"];

fn main() {
    threads::run("shuffled", TICKETS, 1300, run);
}

fn run(run: &mut Run<Met>, many: u64) -> Result<(), Report> {
    let mut stack = Stack::painted(STACK);
    while run.tally.tickets < many {
        let ticket = drawn(&mut run.random);
        let own = by_hand(&mut run.random, &ticket);
        let texts = [reference::print(&ticket), by_tool(&mut run.random, &ticket)?, reference::print(&own)];
        let told = |report: Report| texts.iter().fold(report, |told, text| format!("{told}\n{}", String::from_utf8_lossy(text)));
        let said = texts.iter().map(|text| said(&mut stack, text, ticket.atoms() as usize)).collect::<Result<Vec<_>, Failure>>();
        run.tally.met(&said.map_err(|failure| told(failure.message))?).map_err(told)?;
    }
    Ok(())
}

fn drawn(random: &mut Random) -> Ticket {
    let ticket = match random.below(LARGE) {
        0 => (FAMILIES[random.below(FAMILIES.len())].draw)(random),
        1..=9 => tickets::crowded(random),
        _ => tickets::to_walk(random),
    };
    Ticket { limit: random.pick(&[2_u32, 10, 100, 1000]).to_be_bytes(), ..ticket }
}

/// In another order, renumbered, or both.
fn by_hand(random: &mut Random, ticket: &Ticket) -> Ticket {
    let (mut shuffled, mut numbers) = (ticket.clone(), (0..ticket.constants).collect::<Vec<u8>>());
    let kind = random.below(3);
    if kind > 0 {
        random.shuffle(&mut numbers);
        shuffled = renumbered(ticket, &numbers);
    }
    if kind < 2 {
        random.shuffle(&mut shuffled.clauses);
    }
    shuffled
}

fn renumbered(ticket: &Ticket, numbers: &[u8]) -> Ticket {
    let argument = |argument: &u8| if reference::is_variable(*argument) { *argument } else { numbers[*argument as usize] };
    let atom = |atom: &Atom| Atom { predicate: atom.predicate, arguments: atom.arguments.iter().map(argument).collect() };
    let atoms = |atoms: &[Atom]| atoms.iter().map(atom).collect();
    let clauses = ticket.clauses.iter().map(|clause| Clause { conditions: atoms(&clause.conditions), alternatives: atoms(&clause.alternatives) });
    Ticket { clauses: clauses.collect(), ..ticket.clone() }
}

/// The tool's shuffle, which must have each line of the renumbered ticket as often, and be the same again by the same number.
fn by_tool(random: &mut Random, ticket: &Ticket) -> Result<Vec<u8>, Report> {
    let (read, seed) = (parse::parse(&reference::print(ticket)).map_err(|(line, fault)| format!("line {line}: {}", fault.words))?, random.next() as u32);
    let shuffle = Shuffle::drawn(&read, seed);
    let text = shuffle.of(&read).text();
    same("text by the same number", &text, &Shuffle::drawn(&read, seed).of(&read).text())?;
    let mut numbers = shuffle.numbers.clone();
    numbers.sort();
    same("numbers of constants", (0..ticket.constants).collect::<Vec<u8>>(), numbers)?;
    same("lines", sorted_lines(&reference::print(&renumbered(ticket, &shuffle.numbers))), sorted_lines(&text))?;
    Ok(text)
}

fn sorted_lines(text: &[u8]) -> Vec<&[u8]> {
    let mut lines: Vec<&[u8]> = text.split(|byte| *byte == b'\n').collect();
    lines.sort();
    lines
}

/// What the three engines say of a ticket.
fn said(stack: &mut Stack, text: &[u8], atoms: usize) -> Result<[Fit; 3], Failure> {
    let table = library::read(text).map_err(|refusal| Failure::refused(format!("{refusal:?}")))?;
    let [relevancy, magic] = [Engine::Relevancy, Engine::Magic].map(|engine| library::fit(engine, &table, atoms));
    Ok([relevancy?, magic?, library::fit_staged(stack, &table, atoms)?])
}

/// Verdicts by engine, over tickets as they were and shuffled; tickets on which a count moved, by engine; and tickets on which one walk was spent and another was not.
#[derive(Default)]
struct Met {
    tickets: u64,
    verdicts: [[u64; 3]; 3],
    moved: [u64; 3],
    beside_spent: u64,
}

impl Met {
    /// What the engines say of a ticket, the same shuffled by the tool, and by hand.
    fn met(&mut self, said: &[[Fit; 3]]) -> Result<(), Report> {
        let has = |verdict: Verdict| said.iter().flatten().any(|fit| fit.verdict == verdict);
        if has(Verdict::Fits) && has(Verdict::None) {
            let told: Vec<String> = said.iter().flatten().map(Fit::told).collect();
            return Err(format!("fits meets none: {}", told.join("; ")));
        }
        self.tickets += 1;
        self.beside_spent += (has(Verdict::Spent) && (has(Verdict::Fits) || has(Verdict::None))) as u64;
        for engine in 0..ENGINES.len() {
            said.iter().for_each(|said| self.verdicts[engine][said[engine].verdict as usize] += 1);
            self.moved[engine] += said.iter().any(|other| other[engine].count != said[0][engine].count) as u64;
        }
        Ok(())
    }
}

impl Tally for Met {
    fn add(&mut self, other: &Met) {
        self.tickets += other.tickets;
        self.verdicts.iter_mut().zip(&other.verdicts).for_each(|(own, other)| add_each(own, other));
        add_each(&mut self.moved, &other.moved);
        self.beside_spent += other.beside_spent;
    }

    fn print(&self) {
        println!("engine          none     fits    spent  counts moved");
        let rows = ENGINES.iter().zip(&self.verdicts).zip(&self.moved);
        rows.for_each(|((name, verdicts), moved)| println!("{name:11}{}{moved:14}", row(verdicts)));
        println!("tickets that one walk is spent on and another is not: {}", self.beside_spent);
    }

    /// Each verdict by each engine, and on one ticket of twenty a count that moved; on one of a hundred a walk spent beside one that is not.
    fn missing(&self) -> Vec<String> {
        let seldom = |times: u64, of: u64, what: &str| (of * times < self.tickets).then(|| what.to_string());
        let verdicts = self.verdicts.iter().flatten().filter_map(|times| seldom(*times, 20, "a verdict"));
        let moved = self.moved.iter().filter_map(|times| seldom(*times, 20, "a count that moved"));
        verdicts.chain(moved).chain(seldom(self.beside_spent, 100, "a walk spent beside one that is not")).collect()
    }

    fn agreed(&self) -> String {
        format!("{} tickets", self.tickets)
    }
}
