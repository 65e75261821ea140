//! `add`: whether a rule can be added to a ticket, and the ticket with it.

use crate::arguments::{Arguments, Command};
use crate::clause::{with_clause, MOST_CLAUSES, MOST_SUM};
use crate::ending::{Ending, Failure, Status};
use crate::frame::Fault;
use crate::language::{self, Names};
use crate::library::{self, Slip};
use crate::out;
use crate::read;
use crate::source::{self, Accepted, Source};
use crate::spell::{hex, plain};
use crate::ticket::Ticket;
use std::ffi::OsStr;

pub const COMMAND: Command = Command { name: "add", text: include_str!("help/add.txt"), run };

fn run(arguments: &Arguments) -> Result<Ending, Failure> {
    if arguments.option("-o").is_some() && !arguments.has("--set") {
        return Err(Failure::usage("-o goes with --set: without it no ticket is written"));
    }
    let source = Source::open(arguments.file(0))?;
    let out = out(arguments, &source)?;
    let accepted = source.accepted()?;
    let rule = Typed::by(arguments.rule()?, &accepted)?;
    let offered = offered(&rule.frame, &accepted)?;
    if !arguments.has("--set") {
        return Ok(told(&rule, accepted, offered));
    }
    let (slip, longer) = offered.map_err(|fault| Failure::refused(format!("the rule is refused, by {}: {}", fault.number, fault.words)))?;
    let text = set(&accepted, &slip, &longer)?;
    let Some(out) = out else { return Ok(Ending::new(Status::Good, text)) };
    out::put(out, &text)?;
    if let Some(names) = &accepted.names {
        let sheet = language::show(&text, Some(names)).map_err(Failure::disagreement)?;
        out::put(&source::names_file(out), sheet.as_bytes())?;
    }
    Ok(Ending::new(Status::Good, ""))
}

/// The file that is written: FILE itself, where that is a ticket, or another one.
fn out<'a>(arguments: &'a Arguments, source: &Source) -> Result<Option<&'a OsStr>, Failure> {
    let file = arguments.file(0);
    match arguments.option("-o") {
        Some(out) if !source.is_sheet && file != "-" && out::is_same(out, file) => Ok(Some(out)),
        _ => out::ticket_file(arguments, "-o"),
    }
}

/// The rule as it was typed, the bytes of its line, and what is wrong with it in the language's words, where they say so.
struct Typed<'a> {
    rule: &'a str,
    frame: Vec<u8>,
    beyond: Option<String>,
}

impl Typed<'_> {
    fn by<'a>(rule: &'a str, accepted: &Accepted) -> Result<Typed<'a>, Failure> {
        let plain = Names::plain(accepted.ticket.constants, &accepted.ticket.arities);
        let names = accepted.names.as_ref().unwrap_or(&plain);
        let placed = |error: language::Error| format!("the rule:{}:{}: {}", error.line, error.column, error.message);
        let translated = language::rule(rule, names).map_err(|error| Failure::refused(placed(error)))?;
        let is_full = accepted.ticket.clauses.len() == MOST_CLAUSES;
        Ok(Typed { rule: rule.trim(), frame: translated.frame, beyond: translated.beyond.filter(|_| !is_full).map(placed) })
    }
}

/// What the library says of the rule, with the ticket that it gives, or the fault in words. The tool's own reading must find the same.
fn offered(frame: &[u8], accepted: &Accepted) -> Result<Result<(Slip, Ticket), Fault>, Failure> {
    match (library::offer(&accepted.table, frame)?, with_clause(&accepted.ticket, frame)) {
        (Ok(slip), Ok(longer)) => Ok(Ok((slip, longer))),
        (Err(number), Err(fault)) if number == fault.number => Ok(Err(fault)),
        (said, found) => {
            let [said, found] = [said.err(), found.err().map(|fault| fault.number)].map(|number| number.unwrap_or(0));
            Err(Failure::disagreement(format!("lutsamik_offer says {said} of {}, and the tool finds {found}", hex(frame))))
        }
    }
}

/// The text of the ticket with the rule set. It must be the tool's own, and the library must read it to the same table.
fn set(accepted: &Accepted, slip: &Slip, longer: &Ticket) -> Result<Vec<u8>, Failure> {
    let table = library::set(&accepted.table, slip)?;
    let text = library::write(&table)?;
    if text != longer.text() || library::read(&text).ok() != Some(table) {
        return Err(Failure::disagreement("lutsamik_set leaves another ticket than the one with the rule"));
    }
    Ok(text)
}

fn told(rule: &Typed, accepted: Accepted, offered: Result<(Slip, Ticket), Fault>) -> Ending {
    match offered {
        Ok((_, ticket)) => Ending::new(Status::Good, addable(&rule.frame, Accepted { ticket, ..accepted })),
        Err(fault) => Ending::new(Status::Refused, refused(rule, fault)),
    }
}

/// What the ticket has then.
fn addable(frame: &[u8], longer: Accepted) -> String {
    let (ticket, last) = (&longer.ticket, longer.ticket.clauses.len() - 1);
    let lines = [
        format!("can be added: as clause {last}"),
        format!("rule: {}", longer.rule(last)),
        format!("line: {}", hex(frame)),
        format!("clauses then: {} of at most {MOST_CLAUSES}", ticket.clauses.len()),
        format!("sum of n times c to the power v then: {} of at most {MOST_SUM}", ticket.sum()),
    ];
    lines.join("\n") + "\n"
}

fn refused(rule: &Typed, Fault { number, digits, words }: Fault) -> String {
    let line = read::shown("line: ", hex(&rule.frame).as_bytes(), digits);
    let beyond = rule.beyond.as_ref().map_or(String::new(), |words| format!("{words}\n"));
    format!("cannot be added: refused by {number}\nrule: {}\n{line}here: {words}\n{beyond}{}", plain(rule.rule), read::broken(number))
}
