//! `read`: whether a ticket's text is accepted, and if not, what is wrong with it.

use crate::arguments::{Arguments, Command};
use crate::ending::{Ending, Failure, Status};
use crate::frame::Fault;
use crate::json::{self, Json};
use crate::library::{self, Refusal};
use crate::parse::parse;
use crate::source::{Accepted, Source};
use std::ops::Range;

pub const COMMAND: Command = Command { name: "read", text: include_str!("help/read.txt"), run };

/// Document 01's rule for each refusal, from 1 on.
const RULES: [&str; 10] = [
    "a line has pairs of the digits 0 to 9 and A to F, 2 to 70 of them, and is ended by byte 0A",
    "a line of kind 01 comes first, then one of kind 02 for each predicate, then those of kind 03, and one of kind FF last",
    "a line has the bytes that its kind and its counts ask for, and no more",
    "the version is 01",
    "there are 0 to 32 constants, 1 to 32 predicates of arity 0 to 3, at most 64 clauses, each with 0 to 4 conditions and alternatives, and FF \
     gives the number of clauses",
    "a predicate is one of the ticket's, and an argument is one of its constants or a variable, 80 to 83",
    "the variables of a clause first appear as 80, 81, 82, 83, in that order",
    "each variable of an alternative also stands in a condition",
    "a ticket has at most 1024 ground atoms: the sum of c to the power of the arity over all predicates",
    "the sum of n times c to the power v over all clauses is at most 16384 (n conditions, c constants, v variables)",
];

const SHOWN: usize = 100;

fn run(arguments: &Arguments) -> Result<Ending, Failure> {
    let source = Source::open(arguments.file(0))?;
    match (library::read(&source.text), arguments.has("--json")) {
        (Ok(_), false) => Ok(Ending::new(Status::Good, summary(&source.accepted()?)?)),
        (Ok(_), true) => accepted_json(&source.accepted()?),
        (Err(refusal), false) => Ok(Ending::new(Status::Refused, refused(&source.text, refusal))),
        (Err(refusal), true) => Ok(refused_json(&source.text, refusal)),
    }
}

fn accepted_json(accepted: &Accepted) -> Result<Ending, Failure> {
    let ticket = &accepted.ticket;
    let more = vec![
        ("constants", Json::number(ticket.constants)),
        ("arities", Json::List(ticket.arities.iter().map(|arity| Json::number(*arity)).collect())),
        ("atoms", Json::number(ticket.atoms())),
        ("clauses", Json::number(ticket.clauses.len())),
        ("sum", Json::number(ticket.sum())),
        ("magic_rules", Json::number(library::rewrite(&accepted.table)?)),
        ("limit", Json::number(ticket.limit)),
    ];
    Ok(json::ending("read", "accepted", Status::Good, more))
}

fn refused_json(text: &[u8], Refusal { number, line }: Refusal) -> Ending {
    let here = found(text, number, line).map_or(Json::Null, |fault| Json::text(fault.words));
    let rule = RULES.get((number as usize).wrapping_sub(1)).map_or(Json::Null, |rule| Json::text(*rule));
    json::ending("read", "refused", Status::Refused, vec![("number", Json::number(number)), ("line", Json::number(line)), ("here", here), ("rule", rule)])
}

/// What stands on the line, if the tool's own reading finds the very same fault.
fn found(text: &[u8], number: u8, line: usize) -> Option<Fault> {
    parse(text).err().filter(|(at, fault)| *at == line && fault.number == number).map(|(_, fault)| fault)
}

fn summary(accepted: &Accepted) -> Result<String, Failure> {
    let ticket = &accepted.ticket;
    let lines = [
        "accepted".to_string(),
        format!("constants: {}", ticket.constants),
        format!("predicates: {}, of arities {}", ticket.arities.len(), list(&ticket.arities)),
        format!("atoms: {} of at most 1024", ticket.atoms()),
        format!("clauses: {} of at most 64", ticket.clauses.len()),
        format!("sum of n times c to the power v: {} of at most 16384", ticket.sum()),
        format!("magic rules: {}", library::rewrite(&accepted.table)?),
        format!("limit: {} entries", ticket.limit),
    ];
    Ok(lines.join("\n") + "\n")
}

fn list(numbers: &[u8]) -> String {
    numbers.iter().map(u8::to_string).collect::<Vec<_>>().join(", ")
}

/// The refusal in words.
fn refused(text: &[u8], Refusal { number, line }: Refusal) -> String {
    let mut printed = format!("refused: {number} at line {line}\n");
    let found = found(text, number, line);
    let stands = text.split(|byte| *byte == b'\n').nth(line - 1).unwrap_or_default();
    if !stands.is_empty() {
        printed += &shown(&format!("line {line}: "), stands, found.as_ref().and_then(|fault| fault.digits.clone()));
    }
    if let Some(Fault { words, .. }) = &found {
        printed += &format!("here: {words}\n");
    }
    printed + &broken(number)
}

/// The rule that a refusal stands for, as a line.
pub fn broken(number: u8) -> String {
    let rule = RULES.get((number as usize).wrapping_sub(1));
    rule.map_or(String::new(), |rule| format!("rule {number}: {rule}\n"))
}

/// A line of digits after some words, with marks under the digits at fault. What cannot be printed is shown as a question mark.
pub fn shown(heading: &str, line: &[u8], digits: Option<Range<usize>>) -> String {
    let printable = |byte: &u8| if (b' '..=b'~').contains(byte) { *byte as char } else { '?' };
    let text: String = line.iter().take(SHOWN).map(printable).collect();
    let cut = if line.len() > SHOWN { " ..." } else { "" };
    let mut printed = format!("{heading}{text}{cut}\n");
    if let Some(digits) = digits.filter(|digits| digits.end <= SHOWN + 2) {
        printed += &format!("{}{}\n", " ".repeat(heading.len() + digits.start), "^".repeat(digits.len()));
    }
    printed
}
