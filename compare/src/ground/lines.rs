//! Whole lines of each kind: lines of generated deliveries as they are, with one byte changed at each column in turn,
//! cut short at each length, with more at their ends; and random ones.

use super::question::{about, What, LINE_KINDS};
use super::tally::Tally;
use crate::generate::sheet::Tag;
use crate::generate::{valid, Rng, Size};

/// The fields of each line kind that are read after its form: what is asked, columns.
const READ: [&[(What, u32, u32)]; 10] = [
    &[(What::Date, 0, 0)],
    &[(What::Number, 1, 6), (What::Bits, 0, 0)],
    &[(What::Number, 1, 7), (What::Column, 13, 0)],
    &[(What::Number, 1, 7), (What::Number, 9, 10), (What::Number, 12, 13)],
    &[(What::Number, 4, 8), (What::Number, 23, 25), (What::Number, 27, 29)],
    &[(What::RangeEnd, 8, 14), (What::RangeEnd, 16, 22), (What::Detail, 24, 29), (What::Detail, 31, 36)],
    &[
        (What::RangeEnd, 7, 13),
        (What::RangeEnd, 15, 21),
        (What::Detail, 30, 35),
        (What::Detail, 37, 42),
        (What::Number, 23, 28),
    ],
    &[(What::Number, 1, 7), (What::Time, 30, 35), (What::Time, 37, 42)],
    &[(What::Number, 4, 8), (What::Number, 17, 20), (What::Number, 22, 25)],
    &[(What::Column, 1, 0), (What::Column, 3, 0), (What::Number, 5, 6), (What::Column, 8, 0)],
];

/// Lines of each kind that meet each byte value in each column.
const SWEPT: usize = 3;

/// The place of a line among `LINE_KINDS`.
fn line_kind(tag: Tag) -> Option<usize> {
    match tag {
        Tag::Date(_) => Some(0),
        Tag::BitField(_) => Some(1),
        Tag::Stop(_) => Some(2),
        Tag::Record(_) => Some(3),
        Tag::Z(_) => Some(4),
        Tag::G(..) => Some(5),
        Tag::Ve(..) | Tag::Other(..) => Some(6),
        Tag::Call(..) => Some(7),
        Tag::T(_) => Some(8),
        Tag::Category(_) => Some(9),
        Tag::Skipped | Tag::Free => None,
    }
}

/// At least so many lines of each kind, from deliveries that break no rule.
fn valid_lines(rng: &mut Rng, each: usize) -> [Vec<Vec<u8>>; 10] {
    let mut found: [Vec<Vec<u8>>; 10] = Default::default();
    while found.iter().any(|lines| lines.len() < each) {
        if let Some((_, sheet)) = valid(rng, Size::Small).plan {
            for row in sheet.files.into_iter().flatten() {
                if let Some(kind) = line_kind(row.tag) {
                    found[kind].push(row.text);
                }
            }
        }
    }
    found
}

/// What a line is by itself, its form as each kind, and the fields of its own kind.
fn ask_line(tally: &mut Tally, line: &[u8], kind: usize) {
    tally.ask(about(What::Skips, line, &[]));
    tally.ask(about(What::Kind, line, &[]));
    for other in 0..LINE_KINDS.len() as u32 {
        tally.ask(about(What::Form, line, &[other]));
    }
    for (what, a, b) in READ[kind] {
        tally.ask(about(*what, line, &[*a, *b]));
    }
}

/// Each byte value in each column of a line and a little past its end; only its own form is asked for.
fn ask_all_bytes(tally: &mut Tally, line: &[u8], kind: usize) {
    let mut longer = line.to_vec();
    longer.resize(line.len().max(64) + 2, b' ');
    for at in 0..longer.len() {
        for byte in 0..=255 {
            let kept = std::mem::replace(&mut longer[at], byte);
            tally.ask(about(What::Skips, &longer, &[]));
            tally.ask(about(What::Kind, &longer, &[]));
            tally.ask(about(What::Form, &longer, &[kind as u32]));
            for (what, a, b) in READ[kind] {
                tally.ask(about(*what, &longer, &[*a, *b]));
            }
            longer[at] = kept;
        }
    }
}

/// A byte that is likely to mean something.
fn telling_byte(rng: &mut Rng) -> u8 {
    match rng.below(3) {
        0 => rng.below(256) as u8,
        _ => rng.pick(b"00123456789      %*#-XZTGAVE.FNBHI\t\r\n"),
    }
}

fn ask_changed(tally: &mut Tally, rng: &mut Rng, line: &[u8], kind: usize) {
    for at in 0..=line.len() {
        let mut changed = line.to_vec();
        let byte = telling_byte(rng);
        match rng.below(8) {
            0 => changed.insert(at, byte),
            1 if at < line.len() => {
                changed.remove(at);
            }
            _ if at < line.len() => changed[at] = byte,
            _ => changed.push(byte),
        }
        ask_line(tally, &changed, kind);
        ask_line(tally, &line[..at], kind);
    }
}

fn ask_ends(tally: &mut Tally, rng: &mut Rng, line: &[u8], kind: usize) {
    let long = rng.between(100, 4_000) as usize;
    let ends: [Vec<u8>; 6] =
        [b"\r".to_vec(), b"\r\r".to_vec(), b" \r".to_vec(), vec![b' '; 60], vec![b' '; long], rng.text(long)];
    for end in ends {
        ask_line(tally, &[line, &end].concat(), kind);
    }
}

/// The first bytes that tell a kind, and others, with one to three of them.
fn ask_first_bytes(tally: &mut Tally) {
    for a in 0..=255 {
        for b in *b"ZGATzga *9" {
            for c in [b' ', b'\t', 0, b'Z', 31, 33] {
                let line = [a, b, c];
                for length in 0..=3 {
                    tally.ask(about(What::Kind, &line[..length], &[]));
                    tally.ask(about(What::Skips, &line[..length], &[]));
                }
            }
        }
    }
    for c in 0..=255 {
        tally.ask(about(What::Kind, &[b'*', b'G', c], &[]));
        tally.ask(about(What::Kind, &[b'*', c, b' '], &[]));
    }
}

fn ask_random(tally: &mut Tally, rng: &mut Rng) {
    let length = rng.index(112);
    let few = rng.between(1, 4);
    let line: Vec<u8> = (0..length).map(|_| if rng.once_in(few) { telling_byte(rng) } else { b' ' }).collect();
    ask_line(tally, &line, rng.index(READ.len()));
}

pub fn ask(tally: &mut Tally, rng: &mut Rng, rounds: u32) {
    ask_first_bytes(tally);
    let each = rounds as usize / 5_000 + 1;
    for (kind, lines) in valid_lines(rng, each.max(SWEPT)).iter().enumerate() {
        for line in &lines[..SWEPT] {
            ask_all_bytes(tally, line, kind);
        }
        for line in &lines[..each] {
            ask_line(tally, line, kind);
            ask_changed(tally, rng, line, kind);
            ask_ends(tally, rng, line, kind);
        }
    }
    for _ in 0..rounds / 20 {
        ask_random(tally, rng);
    }
}
