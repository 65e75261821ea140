//! The worked tickets of document 01 and the readings of it that the project holds to: what reading each text gives is
//! asked of the library and of the reference. All but K1 to K9 are data, in cases.txt.
mod library;
mod memory;
mod random;
mod reference;
mod report;
mod worked;

use library::packed;
use memory::{same_bytes, Memory};
use random::Random;
use reference::{encode, Refusal, TABLE, TEXT_OUT};
use report::{same, same_answer, Report};
use std::collections::HashMap;
use worked::Worked;
use Expected::{Accepted, Refused};

enum Expected {
    /// with this number of atoms, and this sum of n * c^v
    Accepted(u64, u64),
    /// with this number, at this line
    Refused(u8, u32),
}

struct Case {
    name: &'static str,
    text: String,
    expected: Expected,
}

fn cases() -> Vec<Case> {
    let sizes = [(6, 5), (6, 5), (6, 5), (6, 5), (6, 3), (6, 7), (1, 0), (1, 0), (1, 1)];
    let first_nine = worked::worked().into_iter().zip(sizes);
    let accepted = |(worked, (atoms, marks)): (Worked, _)| Case { name: worked.name, text: worked.text, expected: Accepted(atoms, marks) };
    let mut cases: Vec<Case> = first_nine.map(accepted).collect();
    let mut names = HashMap::new();
    for line in include_str!("cases.txt").lines().filter(|line| !line.is_empty() && !line.starts_with('#')) {
        match line.split(" |").map(str::trim).collect::<Vec<_>>()[..] {
            [name, words, expected] => cases.push(Case { name, text: spelt(words, &names), expected: awaited(expected) }),
            _ => {
                let (name, words) = line.split_once(" = ").expect("a case, or a name and what it stands for");
                names.insert(name, spelt(words, &names));
            }
        }
    }
    cases
}

/// A text from its words: a name, or bytes with / for 0A and ~ for 0D, either so many times.
fn spelt(words: &str, names: &HashMap<&str, String>) -> String {
    let word = |word: &str| {
        let (word, times) = word.split_once('*').map_or((word, 1), |(word, times)| (word, times.parse().expect("so many times")));
        names.get(word).cloned().unwrap_or_else(|| word.replace('/', "\n").replace('~', "\r")).repeat(times)
    };
    words.split_whitespace().map(word).collect()
}

fn awaited(words: &str) -> Expected {
    let number = |word: &str| word.parse::<u32>().expect("a number");
    match words.split(' ').collect::<Vec<_>>()[..] {
        ["accepted", atoms, marks] => Accepted(number(atoms) as u64, number(marks) as u64),
        [refusal, "at", "line", line] => Refused(number(refusal) as u8, number(line)),
        _ => panic!("what reading gives: {words}"),
    }
}

fn main() {
    let cases = cases();
    let mut failed = 0;
    for case in &cases {
        if let Err(report) = holds_of_reference(case).and_then(|_| holds_of_library(case)) {
            println!("cases: {}: {report}", case.name);
            failed += 1;
        }
    }
    if failed > 0 {
        println!("cases: {failed} of {} FAILED", cases.len());
        std::process::exit(1);
    }
    println!("cases: {} cases, all as written down", cases.len());
}

fn holds_of_reference(case: &Case) -> Result<(), Report> {
    let found = reference::read(case.text.as_bytes());
    match (&case.expected, &found) {
        (Accepted(atoms, marks), Ok(ticket)) => {
            let sum: u64 = ticket.clauses.iter().map(|clause| ticket.marks(clause)).sum();
            same("the reference's number of atoms", *atoms, ticket.atoms())?;
            same("the reference's sum", *marks, sum)
        }
        (Refused(number, line), Err(refusal)) => same("the reference's refusal", Refusal { number: *number, line: *line }, *refusal),
        _ => Err(format!("the reference gives {found:?}")),
    }
}

/// The library answers as is written down, leaves the reference's table, and writes the text back.
fn holds_of_library(case: &Case) -> Result<(), Report> {
    let random = &mut Random::new(1);
    let text = Memory::holding(random, case.text.as_bytes());
    let mut table = Memory::random(random, TABLE + 8);
    let (answer, table_after) = match (&case.expected, reference::read(text.lent())) {
        (Accepted(..), Ok(ticket)) => (packed(0, 0), table.beginning_with(&encode(&ticket))),
        (Refused(number, line), _) => (packed(*number, *line), table.clone()),
        (_, refused) => return Err(format!("the reference gives {refused:?}")),
    };
    let about = || "reading".to_string();
    same_answer(answer, library::read(text.lent(), table.lent_mut()), about)?;
    same_bytes("table", &table_after, &table, about)?;
    if let Refused(..) = case.expected {
        return Ok(());
    }
    let mut out = Memory::random(random, TEXT_OUT + 8);
    let out_after = out.beginning_with(text.lent());
    let about = || "writing back".to_string();
    same_answer(packed(0, text.lent().len() as u32), library::write(table.lent(), out.lent_mut()), about)?;
    same_bytes("text", &out_after, &out, about)
}
