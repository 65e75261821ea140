//! Reading and writing a ticket's text: nanoseconds for one of so many calls, each with what it must leave.

use crate::library::{self, packed};
use crate::reference::{TABLE, TEXT_OUT};
use crate::timing::time;
use std::hint::black_box;

pub fn reading(calls: u32, text: &[u8], table: &[u8], read: fn(&[u8], &mut [u8]) -> u64) -> f64 {
    let mut lent = vec![0xA5; TABLE];
    let took = time(calls, packed(0, 0), || read(black_box(text), black_box(&mut lent)));
    assert_eq!(lent, table, "a table is another");
    took
}

/// Writing checks the table first.
pub fn writing(calls: u32, text: &[u8], table: &[u8]) -> f64 {
    let mut out = vec![0; TEXT_OUT];
    let took = time(calls, packed(0, text.len() as u32), || library::write(black_box(table), black_box(&mut out)));
    assert_eq!(&out[..text.len()], text, "the text written is another");
    took
}
