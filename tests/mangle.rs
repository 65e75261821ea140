//! Damage to a ticket's text: to a byte, to a line, to a frame's byte, to the end.

use crate::random::Random;
use crate::reference::line;

/// Bytes at which some rule of document 01 turns.
const TURNING: [u8; 24] = [
    0x00, 0x01, 0x02, 0x03, 0x04, 0x05, 0x1E, 0x1F, 0x20, 0x21, 0x3F, 0x40, 0x41, 0x7F, 0x80, 0x81, 0x82, 0x83, 0x84, 0x85, 0xFE, 0xFF, 0x0A, 0x30,
];

pub fn mangle(random: &mut Random, text: &mut Vec<u8>) {
    match random.below(24) {
        0..=2 => one_byte(random, text),
        3 => text.truncate(random.below(text.len() + 1)),
        4 => small_letter(random, text),
        5 => at_the_end(random, text),
        6..=9 => in_lines(random, text, whole_lines),
        10..=13 => in_lines(random, text, line_length),
        _ => in_lines(random, text, frame_byte),
    }
}

fn one_byte(random: &mut Random, text: &mut Vec<u8>) {
    if text.is_empty() {
        return text.push(random.byte());
    }
    let at = random.below(text.len());
    let next = (at + 1).min(text.len() - 1);
    match random.below(7) {
        0 => text[at] ^= 1 << random.below(8),
        1 => text[at] = random.byte(),
        2 => text[at] = random.pick(b"0123456789ABCDEF"),
        3 => text.insert(at, text[at]),
        4 => text.insert(at, random.pick(b"0189AFaf \r\n\0/:@G")),
        5 => text.swap(at, next),
        _ => drop(text.remove(at)),
    }
}

fn small_letter(random: &mut Random, text: &mut Vec<u8>) {
    let letters: Vec<usize> = (0..text.len()).filter(|at| text[*at].is_ascii_uppercase()).collect();
    if !letters.is_empty() {
        let at = random.pick(&letters);
        text[at] = text[at].to_ascii_lowercase();
    }
}

fn at_the_end(random: &mut Random, text: &mut Vec<u8>) {
    match random.below(8) {
        0 => drop(text.pop()),                    // no final 0A
        1 => text.push(b'\n'),                    // a blank line
        2 => text.extend(b"FF00"),                // a further line without 0A
        3 => text.extend(b"FF00\n"),              // further lines, well formed
        4 => text.extend(some_line(random)),
        5 => text.extend(b"FF0\n"),               // and badly formed
        6 => text.clear(),
        _ => in_lines(random, text, |_, lines| drop(lines.pop())), // no FF
    }
}

/// Works on the list of lines, each with its 0A (the last perhaps without).
fn in_lines(random: &mut Random, text: &mut Vec<u8>, change: impl Fn(&mut Random, &mut Vec<Vec<u8>>)) {
    let mut lines: Vec<Vec<u8>> = text.split_inclusive(|byte| *byte == b'\n').map(<[u8]>::to_vec).collect();
    if !lines.is_empty() {
        change(random, &mut lines);
        *text = lines.concat();
    }
}

fn whole_lines(random: &mut Random, lines: &mut Vec<Vec<u8>>) {
    let (at, other) = (random.below(lines.len()), random.below(lines.len()));
    match random.below(6) {
        0 => drop(lines.remove(at)),
        1 => lines.insert(at, lines[at].clone()),
        2 => lines.swap(at, other),
        3 => lines.insert(at, b"\n".to_vec()),
        4 => lines.truncate(at),
        _ => lines.insert(at, some_line(random)),
    }
}

/// A well-formed line of any kind, mostly with the bytes of one that could stand somewhere.
fn some_line(random: &mut Random) -> Vec<u8> {
    let mut frame = match random.below(6) {
        0 => vec![0x01, 0x01, 0x02, 0x01, 0, 0, 0, 0x64],
        1 => vec![0x02, 0x01],
        2 => vec![0x03, 0x00, 0x00],
        3 => vec![0xFF, 0x00],
        _ => (0..random.within(1, 6)).map(|_| random.pick(&TURNING)).collect(),
    };
    frame.truncate(random.within(1, 40));
    line(&frame)
}

/// A line cut short, or lengthened, also to just below and above 70 digits.
fn line_length(random: &mut Random, lines: &mut Vec<Vec<u8>>) {
    let at = random.below(lines.len());
    let line = &mut lines[at];
    let digits = line.len().saturating_sub(1);
    let wanted = match random.below(8) {
        0 => random.below(digits + 1),
        1..=3 => random.below(digits / 2 + 1) * 2,
        4 => digits + 1,
        5 => digits + 2 * random.within(1, 4),
        6 => random.within(69, 73),
        _ => random.pick(&[70, 72]),
    };
    line.truncate(digits.min(wanted));
    while line.len() < wanted {
        line.push(random.pick(b"0000018F"));
    }
    line.push(b'\n');
}

/// One byte of a frame set to another value: a wrong version, count, predicate, argument or kind.
fn frame_byte(random: &mut Random, lines: &mut Vec<Vec<u8>>) {
    let at = random.below(lines.len());
    let bytes = lines[at].len() / 2;
    if bytes == 0 {
        return;
    }
    let place = 2 * random.below(bytes);
    let value = if random.once_in(4) { random.byte() } else { random.pick(&TURNING) };
    lines[at][place..place + 2].copy_from_slice(&line(&[value])[..2]);
}
