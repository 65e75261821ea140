//! Writing a session's file: whole or not at all, and over no other file.

use crate::ending::Failure;
use crate::library::Session;
use crate::session::Kept;
use crate::source::called;
use std::ffi::{OsStr, OsString};
use std::fs::{self, File};
use std::io::{self, ErrorKind, Write};
use std::path::{Path, PathBuf};
use std::process;
use std::time::{Duration, Instant, SystemTime, UNIX_EPOCH};

/// How often a long walk writes its session, so that it can be gone on with whatever ends the tool.
const BETWEEN: Duration = Duration::from_secs(10);

pub struct Save {
    /// as the command line has it
    pub name: String,
    file: PathBuf,
    ticket: Vec<u8>,
    last: Option<Instant>,
}

impl Save {
    /// Into a file that is not there yet, or is empty.
    pub fn anew(file: &OsStr, ticket: Vec<u8>) -> Result<Save, Failure> {
        if file == "-" {
            return Err(Failure::usage("a session needs a file of its own: standard output has the answer"));
        }
        let name = called(file);
        let why = match fs::metadata(file) {
            Ok(there) if there.is_dir() => format!("{name} is a folder: a session needs a file"),
            Ok(there) if !there.is_file() => format!("{name} is no file that a session can be kept in"),
            Ok(there) if there.len() > 0 && Kept::open(file).is_ok() => {
                format!("{name} has a session already: './lutsamik resume' goes on with it; to begin anew, name another file")
            }
            Ok(there) if there.len() > 0 => format!("{name} is there already and has no session: it is not written over"),
            Err(error) if error.kind() != ErrorKind::NotFound => format!("cannot write {name}: {error}"),
            _ => return Ok(Save::into(file, name, ticket)),
        };
        Err(Failure::usage(why))
    }

    /// Back into the file that the session was read from.
    pub fn back(file: &OsStr, ticket: Vec<u8>) -> Result<Save, Failure> {
        let name = called(file);
        if fs::metadata(file).is_ok_and(|there| there.permissions().readonly()) {
            return Err(Failure::usage(format!("{name} may not be written to: --save OTHER names another file")));
        }
        Ok(Save::into(file, name, ticket))
    }

    /// A link is followed, so that the session is where it leads to.
    fn into(file: &OsStr, name: String, ticket: Vec<u8>) -> Save {
        Save { name, file: fs::canonicalize(file).unwrap_or_else(|_| file.into()), ticket, last: None }
    }

    /// Writes where a walk stands that is not over, at first and then from time to time. That a later time fails is said at the end.
    pub fn meanwhile(&mut self, session: &Session) -> Result<(), Failure> {
        match self.last {
            None => self.put(session),
            Some(last) if last.elapsed() >= BETWEEN => {
                let _ = self.put(session);
                Ok(())
            }
            Some(_) => Ok(()),
        }
    }

    pub fn put(&mut self, session: &Session) -> Result<(), Failure> {
        self.last = Some(Instant::now());
        let kept = Kept { session: *session, ticket: self.ticket.clone() };
        whole(&self.file, &kept.text()).map_err(|error| Failure::usage(format!("cannot write {}: {error}", self.name)))
    }
}

/// Writes a file under another name beside it, and gives it its name when all is on the disk.
fn whole(file: &Path, bytes: &[u8]) -> io::Result<()> {
    let part = beside(file);
    let mut out = File::options().write(true).create_new(true).open(&part)?;
    let written = fill(&mut out, bytes, file).and_then(|()| fs::rename(&part, file));
    if written.is_err() {
        let _ = fs::remove_file(&part);
    }
    written
}

/// The file that is replaced passes its permissions on.
fn fill(out: &mut File, bytes: &[u8], replaced: &Path) -> io::Result<()> {
    if let Ok(there) = fs::metadata(replaced) {
        out.set_permissions(there.permissions())?;
    }
    out.write_all(bytes)?;
    out.sync_all()
}

/// A name that no other file has, also none that an ended process left.
fn beside(file: &Path) -> OsString {
    let now = SystemTime::now().duration_since(UNIX_EPOCH).unwrap_or_default();
    let mut name = file.as_os_str().to_owned();
    name.push(format!(".{}.{}.part", process::id(), now.as_nanos()));
    name
}
