//! `compile` and `show`: between a sheet of rules with names and a ticket's text.

use crate::arguments::{Arguments, Command};
use crate::ending::{Ending, Failure, Status};
use crate::language;
use crate::library;
use crate::out;
use crate::shuffle::Shuffle;
use crate::source::{self, Accepted, Source};

pub const COMPILE: Command = Command { name: "compile", text: include_str!("help/compile.txt"), run: compile };

pub const SHOW: Command = Command { name: "show", text: include_str!("help/show.txt"), run: show };

fn compile(arguments: &Arguments) -> Result<Ending, Failure> {
    let (file, out) = (arguments.file(0), out::ticket_file(arguments, "-o")?);
    let bytes = source::written(file)?;
    if source::is_ticket(&bytes) {
        return Err(Failure::usage(format!("{} is a ticket's text already; './lutsamik show' prints it as rules", source::called(file))));
    }
    let compiled = Source::compile(file, &bytes)?.accepted()?;
    let accepted = match arguments.number("--shuffle")? {
        Some(seed) => shuffled(&compiled, seed)?,
        None => compiled,
    };
    let text = accepted.ticket.text();
    if library::write(&accepted.table)? != text {
        return Err(Failure::disagreement("the library writes another ticket than was compiled"));
    }
    let used = accepted.ticket.used();
    let tight = if accepted.ticket.is_tight() { "; more than 90 % of a limit is used" } else { "" };
    eprintln!("lutsamik: {used}{tight}");
    if arguments.has("--rules") {
        return Ok(Ending::new(Status::Good, shown(&text, &accepted)?));
    }
    let Some(out) = out else { return Ok(Ending::new(Status::Good, text)) };
    out::put(out, &text)?;
    out::put(&source::names_file(out), shown(&text, &accepted)?.as_bytes())?;
    Ok(Ending::new(Status::Good, ""))
}

/// The ticket shuffled, with its names, each still for what it named.
fn shuffled(accepted: &Accepted, seed: u32) -> Result<Accepted, Failure> {
    let shuffle = Shuffle::drawn(&accepted.ticket, seed);
    let ticket = shuffle.of(&accepted.ticket);
    let refused = |_| Failure::disagreement("shuffled the ticket is refused");
    let table = library::read(&ticket.text()).map_err(refused)?;
    let names = accepted.names.as_ref().map(|names| names.renumbered(&shuffle.numbers));
    Ok(Accepted { table, ticket, names, origins: Vec::new(), numbers: Vec::new() })
}

fn show(arguments: &Arguments) -> Result<Ending, Failure> {
    let file = arguments.file(0);
    let source = Source::of(file, source::written(file)?)?;
    let text = source.text.clone();
    Ok(Ending::new(Status::Good, shown(&text, &source.accepted()?)?))
}

/// An accepted ticket as a sheet, by its names.
fn shown(text: &[u8], accepted: &Accepted) -> Result<String, Failure> {
    language::show(text, accepted.names.as_ref()).map_err(Failure::disagreement)
}
