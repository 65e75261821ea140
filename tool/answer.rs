//! A given answer: the set of atoms in a file; and atoms by their names.

use crate::ending::Failure;
use crate::language::Names;
use crate::source::Accepted;
use crate::spell::hex;
use std::collections::HashMap;

/// The answer's bytes, one for each atom.
pub fn answer(file: &str, bytes: &[u8], accepted: &Accepted) -> Result<Vec<u8>, Failure> {
    match bytes.first() {
        Some(0 | 1) => raw(file, bytes, accepted.ticket.atoms()),
        _ => listed(file, bytes, accepted),
    }
}

/// A byte 0 or 1 for each atom; further bytes do not count.
fn raw(file: &str, bytes: &[u8], atoms: usize) -> Result<Vec<u8>, Failure> {
    match bytes.get(..atoms) {
        Some(marks) => Ok(marks.to_vec()),
        None => Err(Failure::usage(format!("{file} has {} bytes, and the ticket has {atoms} atoms", bytes.len()))),
    }
}

/// An atom in each line. Lines with a colon, and a line 81, say how the fitting was found.
fn listed(file: &str, bytes: &[u8], accepted: &Accepted) -> Result<Vec<u8>, Failure> {
    let known = spellings(accepted);
    let mut marks = vec![0; accepted.ticket.atoms()];
    for (i, line) in String::from_utf8_lossy(bytes).lines().enumerate() {
        let word = bare(line);
        match known.get(&word) {
            Some(number) => marks[*number] = 1,
            None if is_heading(&word) => {}
            None => return Err(Failure::usage(format!("{file}:{}: '{}' is no atom of the ticket and no heading of a fitting", i + 1, line.trim()))),
        }
    }
    Ok(marks)
}

/// The number of an atom that is written so.
pub fn number(word: &str, accepted: &Accepted) -> Option<usize> {
    spellings(accepted).get(&bare(word)).copied()
}

/// An empty line, or one that `fit` prints of a walk that found a fitting.
fn is_heading(word: &str) -> bool {
    match word.split_once(':') {
        Some(("verdict", verdict)) => verdict == "fits",
        Some(_) => true,
        None => word.is_empty() || word.starts_with("8101"),
    }
}

/// Every way to write an atom, without blanks: as in a ticket, as a line of kind 82, and by name, as `show` prints it. Names come last, and so
/// before anything else.
fn spellings(accepted: &Accepted) -> HashMap<String, usize> {
    let plain = Names::plain(accepted.ticket.constants, &accepted.ticket.arities);
    let names = accepted.names.as_ref().unwrap_or(&plain);
    let atoms = accepted.ticket.ground_atoms();
    let frames = atoms.iter().map(|atom| hex(&atom.bytes())).enumerate();
    let lines = frames.clone().map(|(number, frame)| (number, format!("82{frame}")));
    let named = atoms.iter().map(|atom| names.atom(atom.predicate, &atom.arguments)).enumerate();
    frames.chain(lines).chain(named).map(|(number, word)| (bare(&word), number)).collect()
}

fn bare(line: &str) -> String {
    line.split_whitespace().collect()
}
