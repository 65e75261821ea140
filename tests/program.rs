//! What a program of document 01 prints for its standard input.
#![allow(dead_code)] // each program uses its own part

use crate::logic::all_values;
use crate::reference::{self, line, Refusal, Ticket};
use crate::walk::Outcome;

const INPUT: usize = 8192;

pub fn output(input: &[u8], engine: impl Fn(&Ticket) -> Outcome) -> Vec<u8> {
    match reference::read(&input[..input.len().min(INPUT)]) {
        Ok(ticket) => answer(&ticket, &engine(&ticket)),
        Err(Refusal { number, line: at }) => line(&[&[0x8F, number], &(at as u16).to_be_bytes()[..]].concat()),
    }
}

fn answer(ticket: &Ticket, outcome: &Outcome) -> Vec<u8> {
    let mut text = line(&[&[0x81, outcome.verdict as u8], &outcome.count.to_be_bytes()[..]].concat());
    let Some(fitting) = &outcome.fitting else { return text };
    for (atom, is_in) in names(ticket).iter().zip(fitting) {
        if *is_in {
            text.extend(line(&[&[0x82], &atom[..]].concat()));
        }
    }
    text
}

/// Each ground atom's predicate and arguments, in number order.
fn names(ticket: &Ticket) -> Vec<Vec<u8>> {
    let of_predicate = |(j, arity): (usize, &u8)| {
        all_values(ticket.constants, *arity as usize).into_iter().map(move |values| [&[j as u8], &values[..]].concat())
    };
    ticket.arities.iter().enumerate().flat_map(of_predicate).collect()
}
