//! Bad days of a host. On each, calls of every operation go over the same buffers, with arbitrary bytes in them and with lengths at and
//! around the required ones: the answer and every byte, in the buffers and on either side of them, must be as the implementation that is
//! written from documents 01 and 02 has it. Usage: fuzz [SECONDS [SEED]]. A day is drawn by its seed, the next day by the next one; where no seed
//! is given, the clock gives the first. A failure names its day's seed, with which `fuzz 5 SEED` begins.
mod arbitrary;
mod assume;
mod library;
mod logic;
mod magic;
mod mangle;
mod memory;
mod operations;
mod oracle;
mod parts;
mod random;
mod reference;
mod report;
#[allow(dead_code)] // rules are compared by their bytes, and not read back
mod rules;
mod session;
mod slip;
mod stages;
mod tamper;
mod tickets;
mod walk;

use library::SESSION;
use memory::Memory;
use operations::Buffer::{self, *};
use operations::Operation::{self, *};
use operations::{Lent, BUFFERS, NUMBER, OPERATIONS};
use random::Random;
use reference::{Ticket, TABLE};
use report::Report;
use std::collections::BTreeMap;
use std::time::{Duration, Instant, SystemTime, UNIX_EPOCH};

const SECONDS: u64 = 20;
const THREADS: u64 = 2;
const CALLS_A_DAY: usize = 24;

/// Walks are cut after this many entries.
const LONG: u64 = 20;

/// For how many atoms a session is made where no ticket is held.
const FEW_ATOMS: u32 = 6;

/// How many bytes more than required a buffer can have.
const MORE: usize = 57;

fn main() {
    let mut arguments = std::env::args().skip(1).map(|word| word.parse().expect("the arguments are numbers"));
    let seconds = arguments.next().unwrap_or(SECONDS);
    let seed = arguments.next().unwrap_or_else(by_clock);
    println!("fuzz: {seconds} s, from seed {seed} on");
    let end = Instant::now() + Duration::from_secs(seconds);
    let threads: Vec<_> = (0..THREADS).map(|number| std::thread::spawn(move || days(seed + number, end))).collect();
    let mut met = Met::default();
    for thread in threads {
        match thread.join().expect("a thread panicked") {
            Ok(other) => met.add(other),
            Err(report) => fail(&report),
        }
    }
    met.print();
    let missing = met.missing();
    if !missing.is_empty() {
        fail(&format!("never met: {}", missing.join(", ")));
    }
    println!("fuzz: {} calls on {} days, all agree", met.answers.values().sum::<u64>(), met.days);
}

fn fail(report: &str) -> ! {
    println!("{report}\nfuzz: FAILED");
    std::process::exit(1);
}

/// A seed of nine digits at most.
fn by_clock() -> u64 {
    SystemTime::now().duration_since(UNIX_EPOCH).expect("the time").as_micros() as u64 % 1_000_000_000
}

/// A thread's days, one after the other until the time is over.
fn days(first: u64, end: Instant) -> Result<Met, Report> {
    let mut met = Met::default();
    for seed in (first..).step_by(THREADS as usize) {
        Day::new(seed).spend(&mut met).map_err(|report| format!("{report}the day's seed: {seed}"))?;
        met.days += 1;
        if Instant::now() >= end {
            break;
        }
    }
    Ok(met)
}

/// What a host's buffers hold, from call to call: each as much as is required, text, frame and facts as much as they have, and MORE bytes. What is
/// past a session, facts or a count is not lent.
struct Day {
    random: Random,
    held: [Vec<u8>; 13],
}

impl Day {
    fn new(seed: u64) -> Day {
        let mut random = Random::new(seed);
        let held = BUFFERS.map(|buffer| arbitrary::bytes(&mut random, buffer.required() + MORE));
        Day { random, held }
    }

    /// Each call goes by what the calls before have left, but a reading by another text, an offer mostly by another frame, open facts mostly by others, and a
    /// setting by another slip at times, as going on by another session; now and then something else is in a buffer.
    fn spend(&mut self, met: &mut Met) -> Result<(), Report> {
        for i in 0..CALLS_A_DAY {
            let operation = if i == 0 { Read } else { self.random.pick(&OPERATIONS) };
            match operation {
                Read => self.put(Text),
                Offer if self.random.below(4) > 0 => self.put(Frame),
                Set if self.random.once_in(2) => self.put(Slip),
                ResumeRelevancy | ResumeMagic if self.random.once_in(2) => self.put(Session),
                AssumeRelevancy | AssumeMagic if self.random.below(4) > 0 => self.put(Facts),
                _ if self.random.once_in(3) => {
                    let buffer = self.random.pick(operation.buffers());
                    self.put(buffer);
                }
                _ => {}
            }
            self.call(operation, met)?;
        }
        Ok(())
    }

    /// Something else in a buffer, and any bytes past what is required, or past the text or the frame.
    fn put(&mut self, buffer: Buffer) {
        let ticket = if matches!(buffer, Frame | Slip | Session | Facts) { reference::ticket_in(&self.held[Table as usize][..TABLE]) } else { None };
        let (random, held) = (&mut self.random, &mut self.held[buffer as usize]);
        held.truncate(held.len() - MORE);
        *held = match buffer {
            Text if random.once_in(4) => arbitrary::mangled(random, held.clone()),
            Text => arbitrary::text(random),
            Table => arbitrary::table(random, held),
            Answer => arbitrary::answer(random, held),
            Frame => arbitrary::frame(random, ticket.as_ref()),
            Slip => arbitrary::slip(random, held, ticket.as_ref()),
            Facts => bytes_of(&arbitrary::facts(random, ticket.as_ref())),
            Session => tamper::any(random, held, ticket.map_or(FEW_ATOMS, |ticket| ticket.atoms() as u32)),
            _ => arbitrary::bytes(random, held.len()),
        };
        held.extend(arbitrary::bytes(random, MORE));
    }

    /// One call by the library, and what it must answer and leave.
    fn call(&mut self, operation: Operation, met: &mut Met) -> Result<(), Report> {
        if matches!(operation, FitRelevancy | FitMagic | FitStaged | BeginRelevancy | BeginMagic | AssumeRelevancy | AssumeMagic | PartsRelevancy | PartsMagic) {
            self.cut_long_walk();
        }
        let lent = self.lend(operation, met);
        let (answer, left) = oracle::expected(operation, &lent);
        lent.agrees(operation, answer, &left)?;
        for buffer in operation.buffers() {
            let left = left[*buffer].lent();
            self.held[*buffer as usize][..left.len()].copy_from_slice(left);
        }
        met.answer(operation, answer);
        Ok(())
    }

    /// Gives the ticket in the table, if there is one, a limit that stops a long walk, also where the facts are added, and of each part.
    fn cut_long_walk(&mut self) {
        let held = &self.held[Facts as usize];
        let facts: Vec<u32> = held[..held.len() - MORE].chunks(NUMBER).map(|bytes| u32::from_le_bytes(bytes.try_into().unwrap())).collect();
        let table = &mut self.held[Table as usize];
        if let Some(ticket) = reference::ticket_in(&table[..Table.required()]) {
            let added = if assume::refused(&ticket, &facts).is_none() { &facts[..] } else { &[] };
            let mut tickets = vec![assume::with_facts(&ticket, added)];
            tickets.extend(parts::parts(&ticket).into_iter().map(|part| part.ticket));
            let quick = |ticket: &Ticket| arbitrary::quick_limit(ticket, LONG);
            let limit = tickets.iter().map(quick).fold(quick(&ticket), u32::min);
            table[4..8].copy_from_slice(&limit.to_be_bytes());
        }
    }

    /// The operation's buffers; mostly they are long enough, and text and frame are whole.
    fn lend(&mut self, operation: Operation, met: &mut Met) -> Lent {
        let near = self.random.once_in(3);
        let ticket = if operation == Holding { reference::ticket_in(&self.held[Table as usize][..TABLE]) } else { None };
        let (clause, values) = arbitrary::instance(&mut self.random, ticket.as_ref());
        let further = tamper::further(&mut self.random, &self.held[Session as usize][..SESSION], LONG as u32);
        let buffers = BUFFERS.map(|buffer| {
            let held = &self.held[buffer as usize];
            let mut len = 0;
            if operation.buffers().contains(&buffer) {
                let which = any_length(&mut self.random, buffer, near);
                len = length(held.len() - MORE, which);
                met.length(operation, buffer, which);
            }
            match buffer {
                Text | Frame => Memory::holding(&mut self.random, &held[..len]),
                _ => Memory::random(&mut self.random, len).beginning_with(&held[..len]),
            }
        });
        Lent { buffers, clause, values, further }
    }
}

/// The bytes of numbers.
fn bytes_of(numbers: &[u32]) -> Vec<u8> {
    numbers.iter().flat_map(|number| number.to_le_bytes()).collect()
}

/// The lengths near a required one.
const LENGTHS: [&str; 6] = ["no byte", "one byte", "one byte less", "as required", "one byte more", "more"];
const AS_REQUIRED: usize = 3;

fn length(required: usize, which: usize) -> usize {
    [0, 1, required.saturating_sub(1), required, required + 1, required + MORE][which]
}

/// Which of them: any, or one that is enough.
fn any_length(random: &mut Random, buffer: Buffer, near: bool) -> usize {
    match buffer {
        _ if buffer.is_of_numbers() => AS_REQUIRED,
        _ if near => random.below(LENGTHS.len()),
        Text | Frame => AS_REQUIRED,
        _ => random.within(AS_REQUIRED, LENGTHS.len() - 1),
    }
}

/// What a run has met: how often each operation gave which answer, and was lent a buffer of which length.
#[derive(Default)]
struct Met {
    days: u64,
    answers: BTreeMap<(Operation, String), u64>,
    lengths: BTreeMap<(Operation, Buffer, usize), u64>,
}

impl Met {
    fn answer(&mut self, operation: Operation, answer: u64) {
        let (refusal, said) = (answer as u8, (answer >> 8) as u8);
        let name = if refusal == 0 { said_by(operation)[said as usize].to_string() } else { named(refusal) };
        *self.answers.entry((operation, name)).or_default() += 1;
    }

    fn length(&mut self, operation: Operation, buffer: Buffer, which: usize) {
        *self.lengths.entry((operation, buffer, which)).or_default() += 1;
    }

    fn add(&mut self, other: Met) {
        self.days += other.days;
        other.answers.into_iter().for_each(|(key, times)| *self.answers.entry(key).or_default() += times);
        other.lengths.into_iter().for_each(|(key, times)| *self.lengths.entry(key).or_default() += times);
    }

    fn print(&self) {
        for operation in OPERATIONS {
            let answers = self.answers.iter().filter(|((by, _), _)| *by == operation);
            let told: Vec<String> = answers.map(|((_, name), times)| format!(" {name}: {times}")).collect();
            println!("{:15}{}", format!("{operation:?}"), told.join(","));
        }
    }

    fn missing(&self) -> Vec<String> {
        let mut missing = Vec::new();
        for operation in OPERATIONS {
            let names = said_by(operation).iter().filter(|name| !name.is_empty()).map(|name| name.to_string());
            let answers = names.chain(refusals_of(operation).iter().map(|refusal| named(*refusal)));
            let never = answers.filter(|name| !self.answers.contains_key(&(operation, name.clone())));
            missing.extend(never.map(|name| format!("{operation:?}: {name}")));
            for buffer in operation.buffers().iter().filter(|buffer| !buffer.is_of_numbers()) {
                let never = (0..LENGTHS.len()).filter(|which| !self.lengths.contains_key(&(operation, *buffer, *which)));
                missing.extend(never.map(|which| format!("{operation:?} with {buffer:?}: {}", LENGTHS[which])));
            }
        }
        missing
    }
}

/// The answers that are no refusals, by their bits 8 to 15.
fn said_by(operation: Operation) -> &'static [&'static str] {
    match operation {
        FitRelevancy | FitMagic | FitStaged | BeginRelevancy | BeginMagic | ResumeRelevancy | ResumeMagic | PartsRelevancy | PartsMagic => {
            &["none", "fits", "spent"]
        }
        Judge => &["", "fitting", "violated"],
        AssumeRelevancy | AssumeMagic => &["none always", "none never", "spent", "none with some"],
        _ => &["done"],
    }
}

/// So that names are in the order of numbers.
fn named(refusal: u8) -> String {
    format!("{refusal:2}")
}

fn refusals_of(operation: Operation) -> &'static [u8] {
    match operation {
        Read => &[1, 2, 3, 4, 5, 6, 7, 8, 9, 10, 11],
        Offer => &[2, 3, 5, 6, 7, 8, 10, 11, 31],
        Set => &[2, 3, 5, 6, 7, 8, 10, 11, 31, 43],
        Judge => &[11, 31, 32],
        Holding => &[11, 31, 32, 44],
        ResumeRelevancy | ResumeMagic => &[11, 31, 41, 42],
        AssumeRelevancy | AssumeMagic => &[5, 11, 31, 45],
        _ => &[11, 31],
    }
}
