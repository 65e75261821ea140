//! A test that makes many calls: two threads share them, and what they have met is added up and told.
#![allow(dead_code)] // each program uses its own part

use crate::random::Random;
use crate::report::Report;

pub const THREADS: u64 = 2;

/// Bytes of stack for each thread, so that no call needs more.
const STACK: usize = 1 << 20;

/// What a run has met.
pub trait Tally: Default + Send + 'static {
    fn add(&mut self, other: &Self);

    fn print(&self);

    /// What each run must meet and this one has not, or too seldom.
    fn missing(&self) -> Vec<String>;

    /// How many of what have agreed.
    fn agreed(&self) -> String;
}

/// A thread's part of a test: its number, its random numbers, and what it has met.
pub struct Run<T> {
    pub number: u64,
    pub random: Random,
    pub tally: T,
}

/// Runs a test of this name, with the program's first argument or by default with `many`, of which each thread is given
/// its share. Ends the program where something differs or is missing.
pub fn run<T: Tally>(name: &str, many: u64, seed: u64, part: fn(&mut Run<T>, u64) -> Result<(), Report>) {
    let many = match std::env::args().nth(1) {
        Some(word) => word.parse().expect("the argument is a number"),
        None => many,
    };
    let thread = |number| {
        let mut run = Run { number, random: Random::new(seed + number), tally: T::default() };
        let body = move || part(&mut run, many.div_ceil(THREADS)).map(|_| run.tally);
        std::thread::Builder::new().stack_size(STACK).spawn(body).expect("a thread")
    };
    let threads: Vec<_> = (0..THREADS).map(thread).collect();
    let mut tally = T::default();
    for thread in threads {
        match thread.join().expect("a thread panicked") {
            Ok(part) => tally.add(&part),
            Err(report) => fail(name, &report),
        }
    }
    tally.print();
    let missing = tally.missing();
    if !missing.is_empty() {
        fail(name, &format!("never met, or too seldom: {}", missing.join(", ")));
    }
    println!("{name}: {}, all agree", tally.agreed());
}

fn fail(name: &str, report: &str) -> ! {
    println!("{report}");
    println!("{name}: FAILED");
    std::process::exit(1);
}

/// Adds each number to the one at its place.
pub fn add_each(to: &mut [u64], from: &[u64]) {
    to.iter_mut().zip(from).for_each(|(to, from)| *to += from);
}

/// The numbers, one below each column of a heading.
pub fn row(numbers: &[u64]) -> String {
    numbers.iter().map(|number| format!("{number:9}")).collect()
}
