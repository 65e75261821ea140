//! Frames by hand, offered and set, with what document 02 says of each: which fault of two comes first, and what a slip or a table is left.

use crate::library;
use crate::reference::{SLIP, TABLE, TEXT_OUT};
use crate::report::{same, Report};
use crate::slip::{filled, text_with, ROOM};

/// Frames, by their digits, and what document 02 says of them: to K6 of document 01, which has four clauses, two constants and three predicates of one
/// argument; to K6 with 64 clauses; and to K11, whose sum is 16,384. The last number is how many zero bytes follow the frame.
const TO_K6: [(&str, u8, usize); 46] = [
    ("", 2, 0),
    ("00", 2, 0),
    ("02", 2, 0),
    ("FF04", 2, 0),
    ("0101020300000064", 2, 0),
    ("0305", 5, 0),
    ("04", 2, 255),
    ("03", 3, 0),
    ("0300", 3, 0),
    ("030000", 0, 0),
    ("030000", 3, 1),
    ("030000", 3, 32),
    ("030000", 3, 33),
    ("030000", 3, 34),
    ("030000", 3, 252),
    ("030000", 3, 253),
    ("030000", 3, 254),
    ("030000", 3, 65533),
    ("0305", 5, 33),
    ("0305", 5, 34),
    ("0305", 5, 254),
    ("03FF", 5, 34),
    ("030005", 5, 0),
    ("030005", 5, 33),
    ("030104", 3, 0),
    ("03040002800001010002", 3, 0),
    ("0301000280", 0, 0),
    ("0301000280", 3, 1),
    ("0301000280", 3, 31),
    ("0301000280", 3, 251),
    ("03010003", 6, 0),
    ("03010003", 6, 40),
    ("0301000102", 6, 0),
    ("0301000102", 6, 31),
    ("0301000120", 6, 0),
    ("030100017F", 6, 0),
    ("0301000184", 6, 300),
    ("0301000181", 7, 0),
    ("0301000181", 7, 31),
    ("0301000181", 7, 252),
    ("0300010180", 8, 0),
    ("0300010180", 3, 1),
    ("0300010180", 3, 31),
    ("0302010280010100", 3, 0),
    ("030102028001800081", 8, 0),
    ("03010300800180028000", 3, 0),
];

const TO_FULL: [(&str, u8, usize); 9] = [
    ("", 2, 0),
    ("02", 2, 0),
    ("FF40", 2, 33),
    ("03", 5, 0),
    ("030000", 5, 0),
    ("030000", 5, 33),
    ("03010003", 5, 0),
    ("0301000181", 5, 250),
    ("0300010180", 5, 0),
];

const TO_K11: [(&str, u8, usize); 7] = [
    ("030000", 0, 0),
    ("030001000000", 0, 0),
    ("030100000000", 10, 0),
    ("030100008081", 10, 0),
    ("030100008081", 3, 1),
    ("030100008081", 3, 30),
    ("030101008081000082", 8, 0),
];

const K6: &str = "0101020300000064\n0201\n0201\n0201\n0300010000\n030102008001800280\n0301000100\n03020002800001\nFF04\n";
const K11: &str = "0101200100000064\n0202\n030400008081008081008081008081\n030400008081008081008081008081\n030400008081008081008081008081\n\
                   030400008081008081008081008081\nFF04\n";

/// Each frame offered, and where a slip can hold it, set.
pub fn offers_and_sets() -> Result<(), Report> {
    let full = K6.replace("FF04", &["030000\n".repeat(60).as_str(), "FF40"].concat());
    for (text, frames) in [(K6, &TO_K6[..]), (&full, &TO_FULL), (K11, &TO_K11)] {
        let mut table = vec![0; TABLE];
        same("reading", 0, library::read(text.as_bytes(), &mut table))?;
        for (digits, number, zeros) in frames {
            let mut frame = bytes_of(digits);
            frame.resize(frame.len() + zeros, 0);
            let mut held = vec![0xEE; SLIP];
            same(&format!("an offer of {digits} and {zeros} zeros"), *number as u64, library::offer(&table, &frame, &mut held))?;
            same(&format!("the slip of {digits}"), if *number == 0 { filled(table[2], &frame) } else { vec![0xEE; SLIP] }, held)?;
            if frame.len() <= ROOM {
                set_by_hand(text, &table, &frame, *number)?;
            }
        }
    }
    Ok(())
}

/// The same frame in a slip, with the ticket's number of clauses, with another, and with no room for its length.
fn set_by_hand(text: &str, table: &[u8], frame: &[u8], number: u8) -> Result<(), Report> {
    let about = format!("a setting of {frame:02X?}");
    let mut left = table.to_vec();
    let mut held = filled(table[2], frame);
    same(&about, number as u64, library::set(&mut left, &held))?;
    let longer = if number == 0 { text_with(text.as_bytes(), frame) } else { text.as_bytes().to_vec() };
    same(&about, longer, written(&left)?)?;
    left.copy_from_slice(table);
    held[1] = 36;
    same("a setting without room", 3, library::set(&mut left, &held))?;
    for count in (0..=255).filter(|count| *count != table[2]) {
        held[0] = count;
        same("a setting with another number of clauses", 43, library::set(&mut left, &held))?;
    }
    same("the table after refusals", table, &left)
}

fn bytes_of(digits: &str) -> Vec<u8> {
    (0..digits.len() / 2).map(|i| u8::from_str_radix(&digits[2 * i..][..2], 16).expect("digits")).collect()
}

/// What the library writes a table out as.
pub fn written(table: &[u8]) -> Result<Vec<u8>, Report> {
    let mut out = vec![0; TEXT_OUT];
    let answer = library::write(table, &mut out);
    same("refusal of writing", 0, answer as u8)?;
    out.truncate((answer >> 32) as usize);
    Ok(out)
}
