//! Comparing what was found with what was expected, and telling the difference.
#![allow(dead_code)] // each program uses its own part

/// What went wrong, told in full.
pub type Report = String;

pub fn same<T: PartialEq + std::fmt::Debug>(what: &str, expected: T, found: T) -> Result<(), Report> {
    if expected == found {
        return Ok(());
    }
    Err(format!("{what}: {found:?}, expected {expected:?}"))
}

/// Of the library's answers, which are packed.
pub fn same_answer(expected: u64, found: u64, about: impl Fn() -> String) -> Result<(), Report> {
    if expected == found {
        return Ok(());
    }
    Err(format!("answer {found:#X}, expected {expected:#X}: {}", about()))
}

/// The bytes of a table that are not zero.
pub fn dump(table: &[u8]) -> String {
    table.chunks(16).enumerate().filter(|(_, row)| row.iter().any(|byte| *byte != 0)).map(|(i, row)| format!("  {:4} {row:02X?}\n", i * 16)).collect()
}
