//! Fields of every sort, somewhere in a line: from texts that say something, with each byte value in each column in
//! turn, and from random bytes.

use super::question::{Question, What};
use super::tally::Tally;
use crate::generate::Rng;

/// A sort of field: what is asked of it and with which further numbers, texts to start from, and likely bytes.
struct Field {
    what: What,
    more: [u32; 2],
    texts: &'static [&'static str],
    likely: &'static [u8],
}

const TIMES: &[&str] =
    &["      ", " 00800", "-00812", " 99959", "-00000", " 00059", " 00060", " 12 00", "000800", "+00800"];
const ENDS: &[&str] =
    &["       ", "1000011", "0000000", "9999999", "#0     ", "     #7", " #12   ", "#123456", "#     1", "# 1    "];
const DETAILS: &[&str] =
    &["      ", "#0    ", "    #2", " #01  ", "#99999", " 00810", "-00810", " 00872", "#     ", "##1   "];
const DATES: &[&str] = &["01.01.1900", "31.12.2199", "29.02.2000", "29.02.1900", "00.00.0000", "30.09.1996"];
const NUMBERS: &[&str] =
    &["0", "7", "42", "007", "1234", "00000", "999999", "9999999", "12345678", "999999999", "    60   "];
const COUNTS: &[&str] =
    &["5", " 5", "60", "61", "  ", "05", "5 ", "  7", " 60", "100", "    60", "999999999", "        0"];
const HEXES: &[&str] = &["0", "F", "FE6", "0123456", "89ABCDEF", "GHIJ", "abcdef", "00000000 ", "FFFFFFFFF"];
const FILLED: &[&str] = &["a", "FERRY_", "FERRY ", "      ", "000000001"];

const FIELDS: [Field; 11] = [
    Field { what: What::Time, more: [0, 0], texts: TIMES, likely: b"     -00012345599" },
    Field { what: What::RangeEnd, more: [0, 0], texts: ENDS, likely: b"     ##0123456789" },
    Field { what: What::Detail, more: [0, 0], texts: DETAILS, likely: b"     -##001234559" },
    Field { what: What::Date, more: [0, 0], texts: DATES, likely: b"..00112233999" },
    Field { what: What::Number, more: [0, 0], texts: NUMBERS, likely: b"   0123456789" },
    Field { what: What::Count, more: [60, 0], texts: COUNTS, likely: b"    0123456789" },
    Field { what: What::Every, more: [0, 0], texts: NUMBERS, likely: b"0123456789" },
    Field { what: What::Every, more: [1, 0], texts: HEXES, likely: b"0123456789ABCDEF" },
    Field { what: What::Every, more: [2, 0], texts: FILLED, likely: b"aB3-_#" },
    Field { what: What::Every, more: [3, 32], texts: FILLED, likely: b"      " },
    Field { what: What::Every, more: [3, 48], texts: NUMBERS, likely: b"000000" },
];

/// Asks for a field in a line: with bytes before it (a date stands in front), and bytes after it or none. Columns past
/// the line's end read as blank, so blanks at the end may be left out.
fn ask_placed(tally: &mut Tally, rng: &mut Rng, field: &Field, bytes: &[u8]) {
    let before = if field.what == What::Date { 0 } else { rng.index(4) };
    let mut line = rng.text(before);
    line.extend_from_slice(bytes);
    match rng.below(4) {
        0 => line.extend(rng.text(3)),
        1 => {
            while line.len() > before && line.last() == Some(&b' ') {
                line.pop();
            }
        }
        _ => {}
    }
    let columns = [before as u32 + 1, (before + bytes.len()) as u32];
    let numbers = [columns[0], columns[1], field.more[0], field.more[1]];
    tally.ask(Question { what: field.what, bytes: &line, numbers });
}

/// Every text with each byte value in each column in turn.
fn ask_all_bytes(tally: &mut Tally, rng: &mut Rng, field: &Field) {
    for text in field.texts {
        for column in 0..text.len() {
            for byte in 0..=255 {
                let mut bytes = text.as_bytes().to_vec();
                bytes[column] = byte;
                ask_placed(tally, rng, field, &bytes);
            }
        }
    }
}

/// Likely bytes with now and then any other, as wide as one of the texts.
fn ask_random(tally: &mut Tally, rng: &mut Rng, field: &Field) {
    let width = rng.pick(field.texts).len();
    let mut bytes: Vec<u8> = (0..width).map(|_| rng.pick(field.likely)).collect();
    if rng.coin() {
        bytes = rng.pick(field.texts).as_bytes().to_vec();
        let at = rng.index(bytes.len());
        bytes[at] = rng.pick(field.likely);
    }
    if rng.once_in(3) {
        let at = rng.index(bytes.len());
        bytes[at] = rng.below(256) as u8;
    }
    ask_placed(tally, rng, field, &bytes);
}

/// All times of five digits, also as details.
fn ask_all_times(tally: &mut Tally) {
    for number in 0..100_000 {
        for sign in [' ', '-'] {
            let line = format!("{}{:05}", sign, number);
            for what in [What::Time, What::Detail] {
                tally.ask(Question { what, bytes: line.as_bytes(), numbers: [1, 6, 0, 0] });
            }
        }
    }
}

/// All counts of two columns, to 60 and to any.
fn ask_all_counts(tally: &mut Tally) {
    for a in 0..=255 {
        for b in 0..=255 {
            for most in [60, 99] {
                tally.ask(Question { what: What::Count, bytes: &[a, b], numbers: [1, 2, most, 0] });
            }
        }
    }
}

/// "#" with so many blanks before it, digits after it and blanks behind, in a range end and in a detail.
fn ask_hashes(tally: &mut Tally, rng: &mut Rng) {
    for (what, width) in [(What::RangeEnd, 7), (What::Detail, 6)] {
        for before in 0..width {
            for digits in 0..width - before {
                let mut line = vec![b' '; width];
                line[before] = b'#';
                line[before + 1..][..digits].fill_with(|| rng.pick(b"0123456789"));
                tally.ask(Question { what, bytes: &line, numbers: [1, width as u32, 0, 0] });
            }
        }
    }
}

/// Single columns up to past the end, and numbers that are too wide.
fn ask_columns(tally: &mut Tally, rng: &mut Rng) {
    let line: Vec<u8> = (0..=255).collect();
    for column in 1..=260 {
        tally.ask(Question { what: What::Column, bytes: &line, numbers: [column, 0, 0, 0] });
    }
    for byte in 0..=255 {
        tally.ask(Question { what: What::Column, bytes: &[byte], numbers: [1, 0, 0, 0] });
    }
    for _ in 0..1_000 {
        let text = rng.text(12);
        let from = rng.between(1, 14);
        let numbers = [from, from + rng.below(12), 0, 0];
        tally.ask(Question { what: What::Number, bytes: &text, numbers });
    }
}

pub fn ask(tally: &mut Tally, rng: &mut Rng, rounds: u32) {
    for field in &FIELDS {
        ask_all_bytes(tally, rng, field);
    }
    ask_all_times(tally);
    ask_all_counts(tally);
    ask_hashes(tally, rng);
    ask_columns(tally, rng);
    for round in 0..rounds / 2 {
        ask_random(tally, rng, &FIELDS[round as usize % FIELDS.len()]);
    }
}
