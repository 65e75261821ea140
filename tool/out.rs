//! The files that a command writes. None is written over a file that the command reads, under whatever name.

use crate::arguments::Arguments;
use crate::ending::Failure;
use crate::source::{called, names_file};
use std::ffi::OsStr;
use std::fs;
use std::os::unix::fs::MetadataExt;

/// The file that an option names; nothing where it is not given, or is standard output.
pub fn file<'a>(arguments: &'a Arguments, option: &str) -> Result<Option<&'a OsStr>, Failure> {
    let Some(out) = arguments.option(option).filter(|out| *out != "-") else { return Ok(None) };
    match arguments.files().iter().find(|input| is_same(out, input)) {
        None => Ok(Some(out)),
        Some(input) => Err(Failure::usage(format!("{option} {} would write over {}, which is read: name another file", called(out), called(input)))),
    }
}

/// A file for a ticket, whose names go beside it.
pub fn ticket_file<'a>(arguments: &'a Arguments, option: &str) -> Result<Option<&'a OsStr>, Failure> {
    let Some(out) = file(arguments, option)? else { return Ok(None) };
    let beside = names_file(out);
    match arguments.files().iter().find(|input| is_same(&beside, input)) {
        None => Ok(Some(out)),
        Some(input) => Err(Failure::usage(format!("the names of {} would be written over {}, which is read: name another file", called(out), called(input)))),
    }
}

/// Whether two names lead to one file.
pub fn is_same(a: &OsStr, b: &OsStr) -> bool {
    let of = |file: &OsStr| fs::metadata(file).map(|there| (there.dev(), there.ino()));
    matches!((of(a), of(b)), (Ok(a), Ok(b)) if a == b) || a == b && a != "-"
}

pub fn put(file: &OsStr, bytes: &[u8]) -> Result<(), Failure> {
    fs::write(file, bytes).map_err(|error| Failure::usage(format!("cannot write {}: {error}", called(file))))
}
