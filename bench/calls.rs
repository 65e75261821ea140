//! The calls whose instructions are counted: each of some programs with each of some inputs.

use crate::engines::{Engine, Lent};
use crate::families;
use crate::grounded;
use crate::judger;
use crate::library::{self, FITTING};
use crate::operations::{reading, writing};
use crate::puzzles::{self, Puzzle};
use crate::random::Random;
use crate::reader;
use crate::reference::{self, Ticket, ANSWER};
use crate::slices::{self, IN_ONE_GO, IN_SLICES};
use crate::tickets;
use crate::timing::time;
use std::hint::black_box;

pub struct Table {
    pub title: String,
    pub inputs: Vec<Input>,
    pub programs: Vec<&'static str>,
    /// The programs that the others are measured by.
    pub measures: Vec<&'static str>,
    /// How many times the measure the others may have at most, where something is asked.
    pub most: Option<f64>,
}

pub struct Input {
    pub family: &'static str,
    pub name: String,
}

impl Table {
    /// The programs that are measured by others.
    pub fn measured(&self) -> impl Iterator<Item = &'static str> + '_ {
        self.programs.iter().copied().filter(|program| !self.measures.contains(program))
    }
}

/// Of fitting first the puzzles, then what is drawn by the seed.
pub fn tables(seed: u64) -> [Table; 4] {
    let plain = |name: String| Input { family: "", name };
    let operations = ["reading", "writing", "judging"].map(|name| plain(name.to_string())).into();
    let walks = slices::all().into_iter().map(|walk| plain(walk.name)).collect();
    [
        fitting("fitting".to_string(), puzzles::all()),
        fitting(format!("fitting, drawn by seed {seed}"), families::drawn(seed)),
        Table { title: "the largest ticket".to_string(), inputs: operations, programs: vec!["library", "Rust"], measures: vec!["Rust"], most: None },
        Table { title: "brought back".to_string(), inputs: walks, programs: vec![IN_SLICES, IN_ONE_GO], measures: vec![IN_ONE_GO], most: Some(slices::MOST) },
    ]
}

fn fitting(title: String, puzzles: Vec<Puzzle>) -> Table {
    let inputs = puzzles.into_iter().map(|puzzle| Input { family: puzzle.family, name: puzzle.name }).collect();
    Table { title, inputs, programs: Engine::QUICK.map(Engine::name).to_vec(), measures: Engine::MEASURES.map(Engine::name).to_vec(), most: None }
}

/// The bench has no writer in Rust.
pub fn is_there(program: &str, input: &str) -> bool {
    (program, input) != ("Rust", "writing")
}

/// Makes one call, and sees to it that its answer is right.
pub fn make(seed: u64, program: &str, input: &str) {
    if let Some(walk) = slices::all().iter().find(|walk| walk.name == input) {
        return walk.make(program);
    }
    match puzzles::all().into_iter().find(|puzzle| puzzle.name == input).or_else(|| families::named(seed, input)) {
        Some(puzzle) => fit(program, &puzzle.ticket),
        None => take_largest(program, input),
    }
}

fn fit(program: &str, ticket: &Ticket) {
    let engine = Engine::QUICK.into_iter().find(|engine| engine.name() == program).expect("an engine");
    let (found, _) = Lent::new(ticket).call(engine, 1);
    let expected = grounded::fit(ticket);
    assert!(found == expected, "{found:?}, expected {expected:?}");
}

fn take_largest(program: &str, operation: &str) {
    let ticket = tickets::full(&mut Random::new(1));
    let (text, table) = (reference::print(&ticket), reference::encode(&ticket));
    match (operation, program) {
        ("reading", "library") => reading(1, &text, &table, library::read),
        ("reading", "Rust") => reading(1, &text, &table, reader::read),
        ("writing", "library") => writing(1, &text, &table),
        ("judging", "library") => judging(&table, library::judge),
        ("judging", "Rust") => judging(&table, judger::judge),
        _ => panic!("no call: {program}, {operation}"),
    };
}

/// With every atom marked, which is a fitting, so that each instance is looked at.
fn judging(table: &[u8], judge: fn(&[u8], &[u8]) -> u64) -> f64 {
    time(1, FITTING, || judge(black_box(table), black_box(&[1; ANSWER])))
}
