//! The rule language: a sheet of rules with names, and its translation to and from a ticket's text. docs/LANGUAGE.md has
//! the grammar. Nothing here decides a ticket; it only spells one.
#![allow(dead_code, unused_imports)] // each program uses its own part

// Named in full, so that a program in another directory can take this file in.
#[path = "language/clauses.rs"]
mod clauses;
#[path = "language/expand.rs"]
mod expand;
#[path = "language/frames.rs"]
mod frames;
#[path = "language/names.rs"]
mod names;
#[path = "language/sheet.rs"]
mod sheet;
#[path = "language/show.rs"]
mod show;
#[path = "language/words.rs"]
mod words;

pub use names::{Names, VARIABLES};
pub use show::show;
pub use sheet::Include;
use words::Place;

/// The limit of a sheet that gives none.
const USUAL_LIMIT: u32 = 1_000_000;

/// A sheet's ticket text, what its constants and predicates are called, and for each clause what it came from.
#[derive(Clone, Debug, PartialEq, Eq)]
pub struct Compiled {
    pub text: Vec<u8>,
    pub names: Names,
    pub origins: Vec<Origin>,
}

/// The line of a sheet that a clause came from, and what the clause's variables are called there, in the order of their numbers.
#[derive(Clone, Debug, PartialEq, Eq)]
pub struct Origin {
    /// 0 for the sheet itself, or the number of a file that it includes, and what that is called
    pub part: usize,
    pub file: Option<String>,
    pub line: usize,
    pub variables: Vec<String>,
}

/// The bytes of a rule's clause line, and what the rule has that no ticket's can, in words of the language.
pub struct Rule {
    pub frame: Vec<u8>,
    pub beyond: Option<Error>,
}

/// What is wrong with a sheet, and where: line and column count from 1, columns in characters.
#[derive(Clone, Debug, PartialEq, Eq)]
pub struct Error {
    /// 0 for the sheet itself, or the number of a file that it includes
    pub part: usize,
    pub line: usize,
    pub column: usize,
    pub message: String,
}

impl Error {
    fn at(place: Place, message: impl Into<String>) -> Error {
        Error { part: place.file, line: place.line, column: place.column, message: message.into() }
    }
}

/// One rule by these names. Whether a ticket can have it is left to Lutsamik.
pub fn rule(source: &str, names: &Names) -> Result<Rule, Error> {
    let written = sheet::read_rule(source)?;
    let place = written.place;
    let mut rules = expand::rules(&[written], names, 1)?;
    let Some(rule) = rules.pop().filter(|_| rules.is_empty()) else { return Err(Error::at(place, "this stands for several rules, or none")) };
    Ok(Rule { frame: clauses::frame_of_any(&rule, names)?, beyond: clauses::frame(&rule, names).err() })
}

/// The ticket text of a sheet that includes no file. Lutsamik's reading accepts it.
pub fn compile(source: &str) -> Result<Compiled, Error> {
    compile_with(source, &mut |name, _| Err(format!("'{name}' cannot be included here")))
}

/// The ticket text of a sheet and the files that it includes.
pub fn compile_with(source: &str, include: &mut Include) -> Result<Compiled, Error> {
    let sheet = sheet::read(source, include)?;
    let names = Names::declared(&sheet)?;
    let rules = expand::rules(&sheet.rules, &names, clauses::MOST_CLAUSES)?;
    let (clauses, origins): (Vec<Vec<u8>>, Vec<Origin>) = clauses::frames(&rules, &names)?.into_iter().unzip();
    drop(rules);
    let mut frames = vec![frames::heading(names.constants().len(), names.arities().count(), sheet.limit.unwrap_or(USUAL_LIMIT))];
    frames.extend(names.arities().map(|arity| vec![frames::ARITY, arity]));
    let end = vec![frames::END, clauses.len() as u8];
    frames.extend(clauses);
    frames.push(end);
    Ok(Compiled { text: frames::text(&frames), names, origins })
}
