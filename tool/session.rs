//! A session's file: where a walk stands, and the ticket that is walked. docs/TOOL.md has its form, which is the same on every machine.

use crate::ending::Failure;
use crate::library::{Session, Verdict};
use crate::parse::parse;
use crate::source::called;
use crate::ticket::Ticket;
use std::ffi::OsStr;
use std::fs::File;
use std::io::{self, Read};

const KIND: &str = "lutsamik session ";
const VERSION: &str = "2";
const CHECK: &str = "check: ";
const VERDICTS: [Verdict; 3] = [Verdict::None, Verdict::Fits, Verdict::Spent];

/// No session's file has as many bytes: a path has 1,024 entries and a ticket's text 7,168 bytes at most.
const MOST: u64 = 1 << 15;

pub struct Kept {
    pub session: Session,
    /// the text of the ticket that the walk was begun on
    pub ticket: Vec<u8>,
}

/// The lines of a file, taken one after another. What is wrong with one is said with its number.
struct Lines<'a> {
    lines: std::str::Lines<'a>,
    taken: usize,
}

impl Kept {
    pub fn open(file: &OsStr) -> Result<Kept, Failure> {
        let name = called(file);
        let bytes = bytes(file).map_err(|error| Failure::usage(format!("cannot read {name}: {error}")))?;
        Kept::parse(&bytes).map_err(|wrong| Failure::refused(format!("{name} {wrong}")))
    }

    pub fn text(&self) -> Vec<u8> {
        let Session { count, length, verdict, next, atoms, nexts, deepest } = &self.session;
        let entries = atoms.iter().zip(nexts).take(*length as usize).map(|(atom, next)| format!("{atom} {next}\n"));
        let heading = format!("{KIND}{VERSION}\nverdict: {}\ncount: {count}\npath: {length}\n", VERDICTS[*verdict as usize].name());
        let ticket = format!("next: {next}\ndeepest: {deepest}\nticket: {}\n", self.ticket.iter().filter(|byte| **byte == b'\n').count());
        let before = std::iter::once(heading).chain(entries).chain([ticket]).collect::<String>();
        let body = [before.as_bytes(), &self.ticket].concat();
        let check = format!("{CHECK}{}\n", check(&body));
        [body, check.into_bytes()].concat()
    }

    /// The session of a file, or what is wrong with the file, in words that its name comes before.
    pub fn parse(bytes: &[u8]) -> Result<Kept, String> {
        let text = String::from_utf8_lossy(bytes);
        let mut lines = Lines { lines: text.lines(), taken: 0 };
        match lines.line().unwrap_or_default().strip_prefix(KIND) {
            Some(VERSION) => {}
            Some(version) => return Err(format!("is a session of version {version:?}: this tool knows version {VERSION}")),
            None => return Err(format!("is no session: its first line is not '{KIND}{VERSION}'")),
        }
        is_whole(bytes)?;
        let kept = Kept { session: lines.session()?, ticket: lines.ticket()? };
        if kept.text() != bytes {
            return Err("is no session: it is not written as one is".to_string());
        }
        Ok(kept)
    }

    /// That the session was begun on this ticket. Its limit does not count, since the walk does not depend on it.
    pub fn is_of(&self, ticket: &Ticket) -> bool {
        parse(&self.ticket).is_ok_and(|own| own.with_limit(0) == ticket.with_limit(0))
    }
}

impl<'a> Lines<'a> {
    fn line(&mut self) -> Result<&'a str, String> {
        self.taken += 1;
        self.lines.next().ok_or_else(|| self.wrong("is missing"))
    }

    fn wrong(&self, what: &str) -> String {
        format!("is no session: its line {} {what}", self.taken)
    }

    /// What stands after a line's name.
    fn named(&mut self, name: &str) -> Result<&'a str, String> {
        let line = self.line()?;
        line.strip_prefix(name).and_then(|rest| rest.strip_prefix(": ")).ok_or_else(|| self.wrong(&format!("is not '{name}: ...'")))
    }

    fn number<N: std::str::FromStr>(&self, digits: &str) -> Result<N, String> {
        digits.parse().map_err(|_| self.wrong(&format!("has {digits:?}, which is no number or too large")))
    }

    fn session(&mut self) -> Result<Session, String> {
        let mut session = Session::EMPTY;
        let verdict = self.named("verdict")?;
        let found = VERDICTS.into_iter().find(|known| known.name() == verdict);
        session.verdict = found.ok_or_else(|| self.wrong("is not none, fits or spent"))? as u8;
        let count = self.named("count")?;
        session.count = self.number(count)?;
        let length = self.named("path")?;
        session.length = self.number(length)?;
        if session.length as usize > session.atoms.len() {
            return Err(self.wrong(&format!("has more entries than {}", session.atoms.len())));
        }
        for i in 0..session.length as usize {
            let (atom, next) = self.line()?.split_once(' ').ok_or_else(|| self.wrong("is not an atom and a next alternative"))?;
            (session.atoms[i], session.nexts[i]) = (self.number(atom)?, self.number(next)?);
        }
        let next = self.named("next")?;
        session.next = self.number(next)?;
        let deepest = self.named("deepest")?;
        session.deepest = self.number(deepest)?;
        Ok(session)
    }

    fn ticket(&mut self) -> Result<Vec<u8>, String> {
        let many = self.named("ticket")?;
        let many: u16 = self.number(many)?;
        let lines = (0..many).map(|_| self.line().map(|line| format!("{line}\n")));
        Ok(lines.collect::<Result<String, String>>()?.into_bytes())
    }
}

/// That a file ends in the check number of what stands before it.
fn is_whole(bytes: &[u8]) -> Result<(), String> {
    let last = bytes.strip_suffix(b"\n").map_or(bytes.len(), |lines| lines.iter().rposition(|byte| *byte == b'\n').map_or(0, |end| end + 1));
    let (body, own) = bytes.split_at(last);
    if !own.starts_with(CHECK.as_bytes()) {
        return Err(format!("is cut off: its last line is not '{CHECK}...'"));
    }
    if own != format!("{CHECK}{}\n", check(body)).as_bytes() {
        return Err("is damaged: its check number is not that of its lines".to_string());
    }
    Ok(())
}

/// The bytes of a file, without what is more than a session's file can have.
fn bytes(file: &OsStr) -> io::Result<Vec<u8>> {
    let mut bytes = Vec::new();
    File::open(file)?.take(MOST).read_to_end(&mut bytes)?;
    Ok(bytes)
}

/// The check number that the command `cksum` prints of these bytes: a CRC of them and of their number.
fn check(bytes: &[u8]) -> u32 {
    let length = bytes.len().to_le_bytes();
    let used = length.len() - length.iter().rev().take_while(|byte| **byte == 0).count();
    let bit = |crc: u32, _| crc << 1 ^ if crc >> 31 == 1 { 0x04C1_1DB7 } else { 0 };
    !bytes.iter().chain(&length[..used]).fold(0, |crc, byte| (0..8).fold(crc ^ (*byte as u32) << 24, bit))
}
