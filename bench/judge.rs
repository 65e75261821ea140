//! How long judging takes: the tickets with the most ground conditions, with answers that are fittings, so that
//! every instance is looked at; by the library, by a judge in Rust made for speed, and by the tests' own independent judge.
//! All check the table first.
mod judger;
#[path = "../tests/library.rs"]
mod library;
#[path = "../tests/logic.rs"]
mod logic;
#[path = "../tests/reference.rs"]
mod reference;
mod timing;

use library::{packed, FITTING};
use logic::Judging;
use reference::{Atom, Clause, Ticket, ANSWER, TEXT_OUT};
use std::hint::black_box;
use timing::{best, time, ROUNDS};

const CALLS: u32 = 10;

fn main() {
    println!("best of {ROUNDS} rounds of {CALLS} calls\n");
    println!("variables  constants  clauses  instances  conditions   library, ns   of it checking   fast, ns   library / fast   independent, ns   library / independent");
    let mut halves = Vec::new();
    for (variables, constants, n, clauses) in [(2, 32, 4, 4), (2, 32, 4, 2), (2, 32, 1, 16), (3, 8, 4, 8), (3, 10, 1, 16), (4, 8, 4, 1), (0, 2, 4, 64)] {
        let ticket = ticket(variables, constants, n, clauses);
        let instances: u64 = ticket.clauses.iter().map(|clause| ticket.instances(clause)).sum();
        let [library, checking, fast, independent] = measure(&ticket);
        println!(
            "{variables:9} {constants:10} {clauses:8} {instances:10} {:11} {library:13.0} {checking:16.0} {fast:10.0} {:16.2} {independent:17.0} {:23.2}",
            n as u64 * instances,
            library / fast,
            library / independent
        );
        halves.push((library - checking, fast));
    }
    let (whole, half) = (halves[0], halves[1]);
    println!("\nfour clauses to two: library past checking {:.2}, fast {:.2}", whole.0 / half.0, whole.1 / half.1);
}

/// Clauses with this many conditions of the first predicate, and four alternatives: three of the last predicate, then
/// one of the first. Where there is room for two predicates, only the first one's atoms are marked.
fn ticket(variables: u8, constants: u8, n: usize, clauses: usize) -> Ticket {
    let arity = variables.min(3);
    let predicates = if 2 * (constants as usize).pow(arity as u32) <= ANSWER { 2 } else { 1 };
    let atom = |predicate: usize, i: usize| Atom {
        predicate: predicate as u8,
        arguments: (0..arity).map(|j| 0x80 + (i as u8 + j) % variables).collect(),
    };
    let alternatives = (0..4).map(|i| atom(if i < 3 { predicates - 1 } else { 0 }, i)).collect();
    let clause = Clause { conditions: (0..n).map(|i| atom(0, i)).collect(), alternatives };
    Ticket { constants, limit: [0; 4], arities: vec![arity; predicates], clauses: vec![clause; clauses] }
}

/// Nanoseconds for judging by the library, for checking the table by it, which is writing it, and for judging by the
/// fast and by the independent judge.
fn measure(ticket: &Ticket) -> [f64; 4] {
    let (text, table) = (reference::print(ticket), reference::encode(ticket));
    assert!(reference::read(&text).is_ok(), "the ticket is refused");
    let mut answer = vec![0; ANSWER];
    answer[..ticket.power(ticket.arities[0] as usize) as usize].fill(1);
    let judging = |judge: fn(&[u8], &[u8]) -> u64| time(CALLS, FITTING, || judge(black_box(&table), black_box(&answer)));
    let mut out = vec![0; TEXT_OUT];
    let written = packed(0, text.len() as u32);
    best([
        &mut || judging(library::judge),
        &mut || time(CALLS, written, || library::write(black_box(&table), black_box(&mut out))),
        &mut || judging(judger::judge),
        &mut || judging(independent),
    ])
}

/// FITTING, or 0 for anything else.
fn independent(table: &[u8], answer: &[u8]) -> u64 {
    let ground = reference::ticket_in(table).map(|ticket| logic::ground(&ticket));
    match logic::judge(table.len(), ground.as_ref(), answer) {
        Judging::Fitting => FITTING,
        _ => 0,
    }
}
