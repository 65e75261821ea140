//! `help`: what there is, and what each command does. The texts are files, since the script `lutsamik` prints them too, before anything is built.

use crate::arguments::Command;
use crate::ending::{Ending, Failure, Status};
use std::ffi::OsString;

const ALL: &str = include_str!("help/all.txt");
const HEADER: &str = include_str!("../include/lutsamik.h");

/// The command that help is asked for, or "" where it is asked for in general; nothing where these words ask for none.
pub fn asked(name: &str, rest: &[OsString]) -> Option<String> {
    let is_help = |word: &str| word == "--help" || word == "-h";
    if rest.iter().take_while(|word| *word != "--").any(|word| is_help(&word.to_string_lossy())) {
        return Some(name.to_string());
    }
    (name == "help" || is_help(name)).then(|| rest.first().map_or(String::new(), |word| word.to_string_lossy().into_owned()))
}

pub fn help(commands: &[Command], asked: &str) -> Result<Ending, Failure> {
    let text = if asked.is_empty() { ALL } else { command(commands, asked)?.text };
    Ok(Ending::new(Status::Good, text))
}

pub fn command<'a>(commands: &'a [Command], name: &str) -> Result<&'a Command, Failure> {
    let found = commands.iter().find(|command| command.name == name);
    found.ok_or_else(|| Failure::usage(format!("there is no command '{name}'; './lutsamik --help' lists them")))
}

/// The version, which the header has.
pub fn version() -> Ending {
    let named = HEADER.lines().find_map(|line| line.strip_prefix("#define LUTSAMIK_VERSION "));
    Ending::new(Status::Good, format!("lutsamik {}\n", named.unwrap_or_default().trim_matches('"')))
}
