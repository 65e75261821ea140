//! `resume`: a walk that was stopped goes on, from the session that it left.

use crate::arguments::{Arguments, Command};
use crate::carry::Carry;
use crate::clock;
use crate::ending::{Ending, Failure};
use crate::engines::Walk;
use crate::fit::engines;
use crate::interrupt;
use crate::library::{Session, TOO_MANY_ENTRIES};
use crate::out::is_same;
use crate::save::Save;
use crate::session::Kept;
use crate::source::{called, Source};
use std::ffi::OsStr;

pub const COMMAND: Command = Command { name: "resume", text: include_str!("help/resume.txt"), run };

fn run(arguments: &Arguments) -> Result<Ending, Failure> {
    let engines = engines(arguments);
    clock::begin(arguments.number("--time-limit")?);
    let further = arguments.number("--further")?;
    let further = further.ok_or_else(|| Failure::usage("resume needs --further N: how many entries more it may make"))?;
    let [file, ticket] = [0, 1].map(|i| arguments.file(i));
    if file == "-" {
        return Err(Failure::usage("a session is read from a file, and not from standard input"));
    }
    let kept = Kept::open(file)?;
    let source = Source::open(ticket)?;
    let accepted = source.accepted()?;
    if !kept.is_of(&accepted.ticket) {
        return Err(Failure::refused(format!("{} was begun on another ticket than {}", called(file), called(ticket))));
    }
    let save = save(file, arguments.option("--save"), kept.ticket)?;
    interrupt::catch();
    let count = kept.session.count;
    let resumed = Walk::resume(&engines, &accepted, &kept.session, further)?;
    let walk = resumed.map_err(|number| refused(file, number, &kept.session, accepted.ticket.atoms()))?;
    Carry { arguments, file: ticket, engines: &engines, accepted: &accepted, most: count + further, stopper: "the further limit", beside: None }.on(walk, Some(save))
}

/// Where the session goes: back, or into another file.
fn save(file: &OsStr, other: Option<&OsStr>, ticket: Vec<u8>) -> Result<Save, Failure> {
    match other {
        Some(other) if !is_same(file, other) => Save::anew(other, ticket),
        _ => Save::back(file, ticket),
    }
}

fn refused(file: &OsStr, number: u8, session: &Session, atoms: usize) -> Failure {
    let file = called(file);
    let Session { count, length, deepest, .. } = session;
    let why = match number {
        TOO_MANY_ENTRIES => format!("{file} has a count of {count}: at most {} entries more can be asked for", u32::MAX - count),
        _ if *deepest < *length as u32 || *deepest as usize > atoms => {
            format!("{file} has a deepest path of {deepest} entries: with its path and this ticket it has {length} to {atoms}")
        }
        _ => format!("{file} does not stand at a place of this ticket's walk"),
    };
    Failure::refused(format!("{why} (refused by {number}); it is left as it is"))
}
