//! The engines that are measured, each called in one way: the library's two whose walk is one, and the staged one; the tests' walk, which repeats passes over
//! all instances at each node; and two in Rust made for speed. The library's times have checking the table and
//! rewriting in them, the others' have grounding.
#![allow(dead_code)] // each program uses its own part

use crate::faster;
use crate::grounded;
use crate::library;
use crate::reference::{self, Ticket, ANSWER, RULES, WORK};
use crate::timing::timed;
use crate::walk::{walk, Outcome, Relevancy, Verdict};
use std::hint::black_box;

#[derive(Clone, Copy)]
pub enum Engine {
    Relevancy,
    Magic,
    Straightforward,
    Optimised,
    Faster,
    Staged,
}

impl Engine {
    pub const LIBRARY: [Engine; 2] = [Engine::Relevancy, Engine::Magic];
    pub const MEASURES: [Engine; 2] = [Engine::Optimised, Engine::Faster];
    pub const QUICK: [Engine; 4] = [Engine::Relevancy, Engine::Magic, Engine::Optimised, Engine::Faster];
    pub const ALL: [Engine; 5] = [Engine::Relevancy, Engine::Magic, Engine::Straightforward, Engine::Optimised, Engine::Faster];

    pub fn name(self) -> &'static str {
        ["relevancy", "magic", "straightforward", "optimised", "faster", "staged"][self as usize]
    }
}

/// A ticket, with what is lent to the library for it.
pub struct Lent<'a> {
    ticket: &'a Ticket,
    table: Vec<u8>,
    rules: Vec<u8>,
    answer: Vec<u8>,
    work: Vec<u8>,
}

impl Lent<'_> {
    pub fn new(ticket: &Ticket) -> Lent<'_> {
        Lent { ticket, table: reference::encode(ticket), rules: vec![0; RULES], answer: vec![0; ANSWER], work: vec![0; WORK] }
    }

    /// What an engine ends with, called so many times, and the nanoseconds that it took.
    pub fn call(&mut self, engine: Engine, times: u32) -> (Outcome, f64) {
        let Lent { ticket, table, rules, answer, work } = self;
        answer.fill(0);
        let (given, took) = match engine {
            Engine::Relevancy => repeated(times, || library::fit_relevancy(table, answer, work)),
            Engine::Magic => repeated(times, || library::fit_magic(table, rules, answer, work)),
            Engine::Staged => repeated(times, || library::fit_staged(table, answer, work)),
            Engine::Straightforward => return repeated(times, || walk(&Relevancy::new(ticket), u32::from_be_bytes(ticket.limit), &mut |_, _| {})),
            Engine::Optimised => return repeated(times, || grounded::fit(black_box(ticket))),
            Engine::Faster => return repeated(times, || faster::fit(black_box(ticket))),
        };
        (outcome(given, &answer[..ticket.atoms() as usize]), took)
    }
}

/// What the last of so many calls gives, and the nanoseconds that all took.
fn repeated<T>(times: u32, mut call: impl FnMut() -> T) -> (T, f64) {
    timed(|| {
        (1..times).for_each(|_| drop(black_box(call())));
        call()
    })
}

/// The library's answer, with a mark for each atom.
fn outcome(given: u64, marks: &[u8]) -> Outcome {
    assert!(given as u8 == 0, "refused: {given:X}");
    let verdict = [Verdict::None, Verdict::Fits, Verdict::Spent][(given >> 8) as u8 as usize];
    let fitting = (verdict == Verdict::Fits).then(|| marks.iter().map(|mark| *mark == 1).collect());
    Outcome { verdict, count: (given >> 32) as u32, deepest: given as u32 >> 16, fitting }
}
