//! Lutsamik at a terminal: commands over the proved library.
mod add;
mod answer;
mod arguments;
mod awaited;
mod carry;
mod check;
mod clause;
mod clock;
mod compile;
mod ending;
mod engines;
mod explain;
mod fit;
mod fitting;
mod fold;
mod frame;
mod help;
mod instance;
mod interrupt;
mod judge;
mod json;
mod language;
mod library;
mod more;
mod out;
mod parse;
mod parts;
mod picture;
mod progress;
#[path = "../tests/random.rs"]
mod random;
mod read;
mod resume;
mod save;
mod session;
mod shuffle;
mod slice;
mod source;
mod spell;
mod staged;
mod svg;
mod ticket;
mod trail;
mod tree;
mod truth;
mod wanted;
mod whatif;
mod words;

use arguments::Command;
use ending::{Ending, Failure, Status};
use std::env;
use std::ffi::OsString;
use std::io::{self, ErrorKind, Write};
use std::process::ExitCode;

const COMMANDS: [Command; 10] = [
    fit::COMMAND,
    resume::COMMAND,
    whatif::COMMAND,
    explain::COMMAND,
    read::COMMAND,
    add::COMMAND,
    judge::COMMAND,
    trail::COMMAND,
    compile::COMPILE,
    compile::SHOW,
];

fn main() -> ExitCode {
    let words: Vec<OsString> = env::args_os().skip(1).collect();
    let status = match run(&words).and_then(put) {
        Ok(status) => status,
        Err(Failure { status, message }) => {
            eprintln!("lutsamik: {}", spell::plain(&message));
            if status == Status::Stopped {
                interrupt::end();
            }
            status as u8
        }
    };
    ExitCode::from(status)
}

fn run(words: &[OsString]) -> Result<Ending, Failure> {
    let Some((name, rest)) = words.split_first() else {
        return Err(Failure::usage("no command; './lutsamik --help' lists them"));
    };
    let name = name.to_string_lossy();
    if name == "--version" {
        return Ok(help::version());
    }
    if let Some(asked) = help::asked(&name, rest) {
        return help::help(&COMMANDS, &asked);
    }
    let command = help::command(&COMMANDS, &name)?;
    (command.run)(&command.arguments(rest)?)
}

/// Writes what a command prints. A reader that wants no more of it, as `head` does, is no failure.
fn put(ending: Ending) -> Result<u8, Failure> {
    let mut out = io::stdout().lock();
    match out.write_all(&ending.printed).and_then(|()| out.flush()) {
        Err(error) if error.kind() != ErrorKind::BrokenPipe => Err(Failure::usage(format!("cannot write to standard output: {error}"))),
        _ => Ok(ending.status as u8),
    }
}
