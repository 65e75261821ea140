//! Bytes, counts and foreign words as they are printed.

/// Bytes as pairs of digits, as document 01 writes them.
pub fn hex(bytes: &[u8]) -> String {
    bytes.iter().map(|byte| format!("{byte:02X}")).collect()
}

/// A number and a noun, in the plural where there is not one of it.
pub fn counted(many: usize, noun: &str) -> String {
    format!("{many} {noun}{}", if many == 1 { "" } else { "s" })
}

/// Longer messages are cut off.
const MOST: usize = 5000;

/// Words that came from outside, in one line: a control character is shown by its number.
pub fn plain(words: &str) -> String {
    let shown = |c: char| if c.is_control() { c.escape_default().to_string() } else { c.to_string() };
    let plain: String = words.chars().take(MOST).map(shown).collect();
    if words.chars().nth(MOST).is_some() { plain + " ..." } else { plain }
}
