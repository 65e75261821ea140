//! A ticket's frames and its text: a line of hexadecimal digits for each frame.

/// The kinds of frames.
const HEADING: u8 = 0x01;
pub const ARITY: u8 = 0x02;
pub const CLAUSE: u8 = 0x03;
pub const END: u8 = 0xFF;

const VERSION: u8 = 0x01;

const DIGITS: &[u8; 16] = b"0123456789ABCDEF";

pub fn heading(constants: usize, predicates: usize, limit: u32) -> Vec<u8> {
    [&[HEADING, VERSION, constants as u8, predicates as u8], &limit.to_be_bytes()[..]].concat()
}

pub fn text(frames: &[Vec<u8>]) -> Vec<u8> {
    let mut text = Vec::new();
    for frame in frames {
        text.extend(frame.iter().flat_map(|byte| [DIGITS[(byte >> 4) as usize], DIGITS[(byte & 15) as usize]]));
        text.push(b'\n');
    }
    text
}

/// The frames of a text, if it is lines of pairs of digits.
pub fn frames(text: &[u8]) -> Option<Vec<Vec<u8>>> {
    let lines = text.strip_suffix(b"\n")?.split(|byte| *byte == b'\n');
    lines.map(|line| line.chunks(2).map(byte).collect()).collect()
}

fn byte(pair: &[u8]) -> Option<u8> {
    let value = |digit: &u8| DIGITS.iter().position(|other| other == digit);
    match pair {
        [high, low] => Some((value(high)? * 16 + value(low)?) as u8),
        _ => None,
    }
}
