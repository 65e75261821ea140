//! A line of a ticket's text as bytes, taken one by one, and what is wrong where one of them is not as it must be.

use crate::spell::{counted, hex};
use std::ops::{Range, RangeInclusive};

pub const MOST_DIGITS: usize = 70;

/// What is wrong on a line: document 01's number for it, the digits at fault where they can be pointed at, and the matter in words.
#[derive(Debug)]
pub struct Fault {
    pub number: u8,
    pub digits: Option<Range<usize>>,
    pub words: String,
}

impl Fault {
    /// A fault of the line as a whole.
    pub fn whole(number: u8, words: impl Into<String>) -> Fault {
        Fault { number, digits: None, words: words.into() }
    }
}

pub struct Frame {
    bytes: Vec<u8>,
    taken: usize,
}

impl Frame {
    /// The bytes of a line, which comes without its 0A.
    pub fn of(line: &[u8]) -> Result<Frame, Fault> {
        if let Some(at) = line.iter().position(|byte| digit(*byte).is_none()) {
            return Err(Fault { number: 1, digits: Some(at..at + 1), words: foreign(line[at]) });
        }
        let length = match line.len() {
            0 => Some("the line is empty".to_string()),
            many if many % 2 == 1 => Some(format!("the line has {many} digits, which is an odd number")),
            many if many > MOST_DIGITS => Some(format!("the line has {many} digits")),
            _ => None,
        };
        match length {
            Some(words) => Err(Fault::whole(1, words)),
            None => Ok(Frame { bytes: line.chunks(2).filter_map(|pair| Some(digit(pair[0])? * 16 + digit(pair[1])?)).collect(), taken: 0 }),
        }
    }

    /// These bytes, however many.
    pub fn of_bytes(bytes: &[u8]) -> Frame {
        Frame { bytes: bytes.to_vec(), taken: 0 }
    }

    /// The next byte, which is asked for as `what`.
    pub fn next(&mut self, what: &str) -> Result<u8, Fault> {
        match self.bytes.get(self.taken) {
            Some(byte) => {
                self.taken += 1;
                Ok(*byte)
            }
            None => Err(self.at(self.taken, 3, format!("the line ends where {what} must stand"))),
        }
    }

    /// The next byte, which must be in a range.
    pub fn count(&mut self, what: &str, range: RangeInclusive<u8>) -> Result<u8, Fault> {
        let count = self.next(what)?;
        if range.contains(&count) {
            return Ok(count);
        }
        Err(self.fault(5, format!("{what} is {} ({count} in decimal), and can be {} to {}", hex(&[count]), range.start(), range.end())))
    }

    /// That no byte is left.
    pub fn end(&self) -> Result<(), Fault> {
        match self.bytes.len() - self.taken {
            0 => Ok(()),
            left => Err(Fault {
                number: 3,
                digits: Some(2 * self.taken..2 * self.bytes.len()),
                words: format!("{} too many: the line is complete without {}", counted(left, "byte"), if left == 1 { "it" } else { "them" }),
            }),
        }
    }

    /// A fault of the byte that was taken last.
    pub fn fault(&self, number: u8, words: impl Into<String>) -> Fault {
        self.at(self.taken - 1, number, words)
    }

    fn at(&self, byte: usize, number: u8, words: impl Into<String>) -> Fault {
        Fault { number, digits: Some(2 * byte..2 * byte + 2), words: words.into() }
    }
}

fn digit(byte: u8) -> Option<u8> {
    match byte {
        b'0'..=b'9' => Some(byte - b'0'),
        b'A'..=b'F' => Some(byte - b'A' + 10),
        _ => None,
    }
}

fn foreign(byte: u8) -> String {
    match byte {
        b'a'..=b'f' => format!("the small letter '{}' stands here; only capital A to F are digits", byte as char),
        b'\r' => "byte 0D stands here: lines end by 0A alone, without the carriage return of some editors".to_string(),
        b' '..=b'~' => format!("the character '{}' stands here, which is no digit", byte as char),
        _ => format!("byte {} stands here, which is no digit", hex(&[byte])),
    }
}
