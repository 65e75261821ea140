//! The ticket that a command is given: in a file or on standard input, as a ticket's text or as a sheet of rules.

use crate::ending::Failure;
use crate::frame::Fault;
use crate::language::{self, Names, Origin};
use crate::library::{self, Refusal, Table};
use crate::parse::parse;
use crate::ticket::Ticket;
use std::ffi::{OsStr, OsString};
use std::fs::File;
use std::io::{self, Read};
use std::path::Path;

/// What a file says, as a ticket's text, and the names of its atoms, where they are known.
pub struct Source {
    pub file: String,
    pub text: Vec<u8>,
    pub names: Option<Names>,
    pub is_sheet: bool,
    /// of a sheet: what each clause came from
    pub origins: Vec<Origin>,
}

/// A ticket that the library accepted.
pub struct Accepted {
    pub table: Table,
    pub ticket: Ticket,
    pub names: Option<Names>,
    pub origins: Vec<Origin>,
    /// the clauses' numbers in the ticket that they are some of; none where they are all
    pub numbers: Vec<usize>,
}

/// More bytes than any ticket, sheet or answer needs.
const MOST: usize = 1 << 19;

/// The bytes of a file, or of standard input where it is called `-`.
pub fn bytes(file: &OsStr) -> Result<Vec<u8>, Failure> {
    let (mut bytes, most) = (Vec::new(), MOST as u64 + 1);
    let read = if file == "-" {
        io::stdin().lock().take(most).read_to_end(&mut bytes)
    } else {
        File::open(file).and_then(|file| file.take(most).read_to_end(&mut bytes))
    };
    read.map_err(|error| Failure::usage(format!("cannot read {}: {error}", called(file))))?;
    if bytes.len() > MOST { Err(too_long(file, &bytes)) } else { Ok(bytes) }
}

/// The same, where anything but blanks and line ends is written there.
pub fn written(file: &OsStr) -> Result<Vec<u8>, Failure> {
    let bytes = bytes(file)?;
    if bytes.trim_ascii().is_empty() { Err(Failure::refused(format!("{} is empty", called(file)))) } else { Ok(bytes) }
}

/// What is wrong with a file of which these bytes are the beginning: the first line that does not fit, of a sheet as the language tells it, where it
/// does so before the last line that is there.
fn too_long(file: &OsStr, bytes: &[u8]) -> Failure {
    let whole = bytes.iter().rposition(|byte| *byte == b'\n').map_or(0, |end| end + 1);
    let lines = bytes[..whole].iter().filter(|byte| **byte == b'\n').count();
    let sheet = std::str::from_utf8(&bytes[..whole]).ok().filter(|_| !is_ticket(bytes));
    match sheet.and_then(|sheet| language::compile(sheet).err()) {
        Some(error) if error.line < lines => misspelt(&called(file), error),
        _ => Failure::refused(format!("{}:{}: with this line it has more than {MOST} bytes", called(file), lines + 1)),
    }
}

fn misspelt(file: &str, error: language::Error) -> Failure {
    Failure::refused(format!("{file}:{}:{}: {}", error.line, error.column, error.message))
}

/// A sheet's file, and those that it includes.
struct Files {
    names: Vec<String>,
    /// how many bytes the next ones can have
    room: usize,
}

/// How many files a sheet can be in.
const MOST_FILES: usize = 16;

impl Files {
    /// A file that one of these includes, by its name in the folder of that one: its number and its text, which is kept as long as the tool runs.
    fn include(&mut self, name: &str, from: usize) -> Result<(usize, &'static str), String> {
        let file = Path::new(&self.names[from]).parent().unwrap_or(Path::new("")).join(name);
        let called = called(file.as_os_str());
        if self.names.contains(&called) {
            return Err(format!("{called} is read already"));
        }
        if self.names.len() == MOST_FILES {
            return Err(format!("with {called} there are more than {MOST_FILES} files"));
        }
        let bytes = bytes(file.as_os_str()).map_err(|failure| failure.message)?;
        self.room = self.room.checked_sub(bytes.len()).ok_or_else(|| format!("with {called} the sheet has more than {MOST} bytes"))?;
        let text = String::from_utf8(bytes).map_err(|_| format!("{called} is no sheet in UTF-8"))?;
        self.names.push(called);
        Ok((self.names.len() - 1, text.leak()))
    }
}

/// What a file is called in a message.
pub fn called(file: &OsStr) -> String {
    if file == "-" { "standard input".to_string() } else { file.to_string_lossy().into_owned() }
}

/// The file of the names that belong to a ticket's file.
pub fn names_file(file: &OsStr) -> OsString {
    [file, OsStr::new(".names")].into_iter().collect()
}

/// Whether these bytes are meant as a ticket's text and not as a sheet: only digits and line ends, or a digit first, as no sheet has it.
pub fn is_ticket(bytes: &[u8]) -> bool {
    bytes.iter().all(|byte| matches!(byte, b'0'..=b'9' | b'A'..=b'F' | b'\n')) || bytes[0].is_ascii_digit()
}

impl Source {
    pub fn open(file: &OsStr) -> Result<Source, Failure> {
        Source::of(file, bytes(file)?)
    }

    /// What these bytes of a file say.
    pub fn of(file: &OsStr, bytes: Vec<u8>) -> Result<Source, Failure> {
        if is_ticket(&bytes) {
            return Ok(Source { file: called(file), names: names_beside(file, &bytes)?, text: bytes, is_sheet: false, origins: Vec::new() });
        }
        Source::compile(file, &bytes)
    }

    /// The ticket of a sheet of rules.
    pub fn compile(file: &OsStr, sheet: &[u8]) -> Result<Source, Failure> {
        let file = called(file);
        let sheet = std::str::from_utf8(sheet).map_err(|_| Failure::refused(format!("{file} is neither a ticket's text nor a sheet in UTF-8")))?;
        let mut files = Files { names: vec![file.clone()], room: MOST.saturating_sub(sheet.len()) };
        let compiled = language::compile_with(sheet, &mut |name, from| files.include(name, from));
        let mut compiled = compiled.map_err(|error| misspelt(&files.names[error.part], error))?;
        compiled.origins.iter_mut().filter(|origin| origin.part > 0).for_each(|origin| origin.file = Some(files.names[origin.part].clone()));
        Ok(Source { file, text: compiled.text, names: Some(compiled.names), is_sheet: true, origins: compiled.origins })
    }

    /// The ticket, or a failure that tells the refusal's number and line.
    pub fn accepted(self) -> Result<Accepted, Failure> {
        let refused = |Refusal { number, line }| {
            Failure::refused(format!("{} is refused, by {number} at line {line}: './lutsamik read' says why", self.file))
        };
        let missed = |(line, fault): (usize, Fault)| {
            Failure::disagreement(format!("the library accepts {}, where line {line} has fault {}: {}", self.file, fault.number, fault.words))
        };
        let table = library::read(&self.text).map_err(refused)?;
        let ticket = parse(&self.text).map_err(missed)?;
        Ok(Accepted { table, ticket, names: self.names, origins: self.origins, numbers: Vec::new() })
    }
}

impl Accepted {
    /// The same ticket with another limit.
    pub fn with_limit(&self, limit: u32) -> Result<Accepted, Failure> {
        let ticket = self.ticket.with_limit(limit);
        let refused = |_| Failure::disagreement("with another limit the ticket is refused");
        Ok(Accepted { table: library::read(&ticket.text()).map_err(refused)?, ticket, names: self.names.clone(), origins: self.origins.clone(), numbers: self.numbers.clone() })
    }

    /// Some of its clauses, by their numbers.
    pub fn only(&self, clauses: &[usize]) -> Result<Accepted, Failure> {
        let ticket = Ticket { clauses: clauses.iter().map(|i| self.ticket.clauses[*i].clone()).collect(), ..self.ticket.clone() };
        let origins = clauses.iter().filter_map(|i| self.origins.get(*i).cloned()).collect();
        let refused = |_| Failure::disagreement("with fewer clauses the ticket is refused");
        Ok(Accepted { table: library::read(&ticket.text()).map_err(refused)?, ticket, names: self.names.clone(), origins, numbers: clauses.to_vec() })
    }
}

/// The names in the file beside a ticket's. It is a sheet of rules, which must be the same ticket, but for the limit.
fn names_beside(file: &OsStr, text: &[u8]) -> Result<Option<Names>, Failure> {
    let beside = names_file(file);
    if file == "-" || !Path::new(&beside).exists() {
        return Ok(None);
    }
    let sheet = Source::compile(&beside, &bytes(&beside)?)?;
    let unlimited = |text: &[u8]| parse(text).map(|ticket| ticket.with_limit(0)).ok();
    match (unlimited(text), unlimited(&sheet.text)) {
        (Some(ticket), named) if named.as_ref() != Some(&ticket) => {
            Err(Failure::usage(format!("{} has another ticket's names: remove it, or compile again", sheet.file)))
        }
        _ => Ok(sheet.names),
    }
}
