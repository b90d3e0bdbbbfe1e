//! Damages to the form of one line (refusal 4), each with the column where the form breaks (document 02, No. 6). Every
//! column that can be told comes about as often as any other of its kind of line.

use super::names::bad_list;
use super::rng::Rng;
use super::sheet::{Row, Sheet, Tag};

/// How columns a to b of a line can break.
#[derive(Clone, Copy, Debug, PartialEq, Eq)]
enum Field {
    Date,
    Digits,
    DigitsOrBlank,
    Hex,
    Name,
    CountTo60,
    Count,
    CountTo13,
    Group,
    Control,
    Supplement,
    Flag,
    NoBlank,
    NotBlank,
    Mismatch,
    RunningTime,
    Density,
    End,
    /// The column of the end beside it.
    Detail(usize),
    Time,
    AllOrNone,
    CrossOrBlank,
    Percent,
    /// Nothing behind the bytes that say the kind.
    Bare,
    Unnamed,
    /// Unnamed columns from the first on.
    Further,
}

use Field::*;

/// Columns a to b, and how they can break.
type Part = (usize, usize, Field);

const DATE: &[Part] = &[(1, 10, Date)];
const BITFIELD: &[Part] = &[(1, 6, Digits), (7, 7, Unnamed), (8, 103, Hex), (104, 110, Unnamed), (111, 111, Further)];
const STOP: &[Part] = &[(1, 7, Digits), (8, 8, Unnamed), (12, 12, Unnamed), (13, 62, Name)];
const RECORD: &[Part] =
    &[(1, 7, Digits), (8, 8, Unnamed), (9, 10, CountTo60), (11, 11, Unnamed), (12, 13, Count), (14, 14, Unnamed)];
const CATEGORY: &[Part] = &[
    (1, 1, NotBlank),
    (4, 4, Unnamed),
    (5, 6, CountTo13),
    (7, 7, Unnamed),
    (8, 8, Group),
    (9, 9, Unnamed),
    (10, 10, Control),
    (11, 11, Unnamed),
    (20, 20, Unnamed),
    (21, 21, Supplement),
    (22, 22, Unnamed),
    (23, 23, Flag),
    (24, 24, Unnamed),
];
const Z: &[Part] = &[
    (4, 8, Digits),
    (9, 9, Unnamed),
    (10, 15, NoBlank),
    (16, 22, Unnamed),
    (23, 25, DigitsOrBlank),
    (26, 26, Unnamed),
    (27, 29, DigitsOrBlank),
    (27, 29, Mismatch),
    (30, 58, Unnamed),
    (59, 59, Percent),
    (4, 8, Bare),
];
const T: &[Part] = &[
    (4, 8, Digits),
    (9, 9, Unnamed),
    (10, 15, NoBlank),
    (16, 16, Unnamed),
    (17, 20, RunningTime),
    (21, 21, Unnamed),
    (22, 25, Density),
    (26, 58, Unnamed),
    (59, 59, Percent),
    (4, 8, Bare),
];
const G: &[Part] = &[
    (4, 4, NotBlank),
    (7, 7, Unnamed),
    (8, 14, End),
    (15, 15, Unnamed),
    (16, 22, End),
    (23, 23, Unnamed),
    (24, 29, Detail(8)),
    (30, 30, Unnamed),
    (31, 36, Detail(16)),
    (37, 58, Unnamed),
    (59, 59, Percent),
];
const A: &[Part] = &[
    (4, 4, NotBlank),
    (6, 6, Unnamed),
    (7, 13, End),
    (14, 14, Unnamed),
    (15, 21, End),
    (22, 22, Unnamed),
    (23, 28, DigitsOrBlank),
    (29, 29, Unnamed),
    (30, 35, Detail(7)),
    (36, 36, Unnamed),
    (37, 42, Detail(15)),
    (43, 58, Unnamed),
    (59, 59, Percent),
];
/// Column 1 makes it a schedule line, so its digits break from column 2 on.
const SCHEDULE: &[Part] = &[
    (2, 7, Digits),
    (8, 8, Unnamed),
    (30, 35, Time),
    (36, 36, Unnamed),
    (37, 42, Time),
    (43, 43, Unnamed),
    (44, 48, DigitsOrBlank),
    (49, 49, Unnamed),
    (50, 55, AllOrNone),
    (56, 56, Unnamed),
    (57, 57, CrossOrBlank),
    (58, 58, Unnamed),
    (59, 59, Percent),
];

fn parts(tag: Tag) -> &'static [Part] {
    match tag {
        Tag::Skipped | Tag::Free => &[],
        Tag::Date(_) => DATE,
        Tag::BitField(_) => BITFIELD,
        Tag::Stop(_) => STOP,
        Tag::Record(_) => RECORD,
        Tag::Category(_) => CATEGORY,
        Tag::Z(_) => Z,
        Tag::T(_) => T,
        Tag::G(..) => G,
        Tag::Ve(..) | Tag::Other(..) => A,
        Tag::Call(..) => SCHEDULE,
    }
}

/// Breaks the form of some line, of any kind that the file has: the file, the line's place in it, and the column.
pub fn break_form(rng: &mut Rng, sheet: &mut Sheet) -> Option<(u32, usize, usize)> {
    if rng.once_in(6) {
        if let Some(broken) = break_density(rng, sheet) {
            return Some(broken);
        }
    }
    if rng.once_in(20) {
        return Some(further_text(rng, sheet));
    }
    let file = rng.pick(&[0, 1, 2, 3, 5, 4, 4, 4, 4, 4, 4]);
    let rows = &mut sheet.files[file];
    let mut kinds: Vec<&[Part]> = Vec::new();
    for kind in rows.iter().map(|row| parts(row.tag)) {
        if !kind.is_empty() && !kinds.contains(&kind) {
            kinds.push(kind);
        }
    }
    if kinds.is_empty() {
        return None;
    }
    let kind = rng.pick(&kinds);
    let alike: Vec<usize> = (0..rows.len()).filter(|i| parts(rows[*i].tag) == kind).collect();
    let at = rng.pick(&alike);
    let column = break_row(rng, &mut rows[at])?;
    Some((file as u32 + 1, at, column))
}

/// Breaks the density of some *T line: 0, negative, or no digits.
fn break_density(rng: &mut Rng, sheet: &mut Sheet) -> Option<(u32, usize, usize)> {
    let rows = &mut sheet.files[4];
    let frequent: Vec<usize> = (0..rows.len()).filter(|i| matches!(rows[*i].tag, Tag::T(_))).collect();
    if frequent.is_empty() {
        return None;
    }
    let at = rng.pick(&frequent);
    put(&mut rows[at].text, 22, rng.pick(wrong_texts(Density, 4)));
    Some((5, at, 22))
}

/// "Section 5.5.1's extra lines answer 4": one of them somewhere in ZUGART.
fn further_text(rng: &mut Rng, sheet: &mut Sheet) -> (u32, usize, usize) {
    let rows = &mut sheet.files[5];
    let text = rng.pick(&[
        "<text>",
        "<German>",
        "<Irish>",
        "class00 ICE",
        "class13",
        "option00 direct only",
        "tariff07 Ships",
    ]);
    let at = rng.index(rows.len() + 1);
    rows.insert(at, Row { tag: Tag::Free, text: text.as_bytes().to_vec() });
    (6, at, 4)
}

/// One part for each column that can be told: every unnamed column stands by itself. What can break in many ways comes more often.
fn told(parts: &[Part]) -> Vec<Part> {
    let each = |(a, b, field): Part| match field {
        Unnamed => (a..=b).map(|column| (column, column, Unnamed)).collect(),
        RunningTime | Density => vec![(a, b, field); 3],
        Mismatch | Bare => vec![(a, b, field); 6],
        _ => vec![(a, b, field)],
    };
    parts.iter().copied().flat_map(each).collect()
}

/// Adds a second offence to a line that may have one: which of them counts is for the order of offences to say.
pub fn pile_on(rng: &mut Rng, row: &mut Row) {
    if rng.coin() {
        break_row(rng, row);
        return;
    }
    match row.tag {
        Tag::Call(..) | Tag::Record(_) => put(&mut row.text, 1, b"7654321"),
        Tag::Ve(..) | Tag::Other(..) => put(&mut row.text, 23, b"765432"),
        Tag::BitField(_) => put(&mut row.text, 8, &[b'0'; 96]),
        Tag::Stop(_) => put(&mut row.text, 13, &bad_list(rng)),
        Tag::G(..) => put(&mut row.text, 4, b"~~~"),
        Tag::Category(_) if rng.coin() => put(&mut row.text, 1, b"BAT"),
        Tag::Category(_) => {
            let other = if row.text.get(7) == Some(&b' ') { b'A' } else { b' ' };
            put(&mut row.text, 8, &[other]);
        }
        _ => {}
    }
}

/// Breaks one field or unnamed column of a line, and names the column; `None` if it has none.
fn break_row(rng: &mut Rng, row: &mut Row) -> Option<usize> {
    let told = told(parts(row.tag));
    if told.is_empty() {
        return None;
    }
    let (a, b, field) = rng.pick(&told);
    let text = &mut row.text;
    match field {
        Unnamed => put(text, a, &[rng.byte(false)]),
        Further => {
            let column = a + rng.index(100);
            put(text, column, &[rng.byte(false)]);
            return Some(column);
        }
        Mismatch => mismatch(rng, text),
        Bare => text.truncate(rng.pick(&[2, 3])),
        Percent if rng.coin() => {
            text.truncate(58);
            while rng.coin() && text.last() == Some(&b' ') {
                text.pop();
            }
        }
        Name => {
            put(text, 13, &[b' '; 50]);
            if rng.coin() {
                text.truncate(12 + rng.index(51));
            }
        }
        Date | Hex if rng.once_in(4) => text.truncate(a - 1 + rng.index(b - a + 1)),
        Date | Digits | Hex | NoBlank => {
            let column = rng.between(a as u32, b as u32) as usize;
            let byte = wrong_byte(rng, field, text.get(column - 1).copied());
            put(text, column, &[byte]);
        }
        _ => {
            if let Detail(end) = field {
                put_stop(text, end);
            }
            let wrong = rng.pick(wrong_texts(field, b + 1 - a));
            put(text, a, wrong);
        }
    }
    // Broken digits of a schedule line count where the field starts.
    Some(if a == 2 { 1 } else { a })
}

/// A detail is read beside a stop number only: some stop, where the end has none.
fn put_stop(text: &mut Vec<u8>, end: usize) {
    let has_stop = text.get(end - 1..end + 6).map_or(false, |place| place.iter().all(u8::is_ascii_digit));
    if !has_stop {
        put(text, end, b"1000011");
    }
}

fn put(text: &mut Vec<u8>, column: usize, bytes: &[u8]) {
    let end = column - 1 + bytes.len();
    if text.len() < end {
        text.resize(end, b' ');
    }
    text[column - 1..end].copy_from_slice(bytes);
}

/// A byte that a digit, hex digit, date or non-blank column must not hold.
fn wrong_byte(rng: &mut Rng, field: Field, right: Option<u8>) -> u8 {
    match field {
        NoBlank => b' ',
        Hex => rng.pick(b" agfG@:/`x-\xff"),
        Date if right == Some(b'.') => rng.pick(b" 0/:-,"),
        _ => rng.pick(b" .:/-+A#\xb2\xff"),
    }
}

fn wrong_texts(field: Field, width: usize) -> &'static [&'static [u8]] {
    match (field, width) {
        (DigitsOrBlank, 3) => &[b"1  ", b" 12", b"  1", b"A12", b"1 2", b"-01", b"+01", b"01:"],
        (DigitsOrBlank, 5) => &[b"12 45", b" 1234", b"1234 ", b"ABCDE", b"-1234"],
        (DigitsOrBlank, _) => &[b"00000 ", b" 00001", b"     1", b"00000A", b"-00001", b"000 01"],
        (RunningTime, _) => {
            &[b"    ", b"-240", b"+240", b" 240", b"240 ", b"02 0", b"024:", b"O240", b"0x10", b"\t240"]
        }
        (Density, _) => &[
            b"0000", b"0000", b"0000", b"0000", b"-090", b"-900", b"-450", b"-001", b"    ", b" 450", b"450 ", b"1   ",
            b"+450", b"045:", b"0 50",
        ],
        (CountTo60, _) => &[b"61", b"99", b"70", b"1 ", b"  ", b"A1", b"1A", b"-1", b"+1", b"\t1"],
        (CountTo13, _) => &[b"14", b"15", b"20", b"99", b"3 ", b"  ", b"A1", b"1A", b"-1", b"+1", b"\t1"],
        (Group, _) => &[b"I", b"@", b"a", b"h", b"0", b"\t", b"\xff"],
        (Control, _) => &[b"8", b"9", b" ", b"/", b"A", b"\t"],
        (Supplement, _) => &[b"3", b"9", b" ", b"/", b"N", b"\t"],
        (Flag, _) => &[b"n", b"b", b"f", b"X", b"0", b"C", b"\t"],
        (Count, _) => &[b"1 ", b"  ", b"A1", b"1A", b"-1", b"+1", b"\t1"],
        (End, _) => &[
            b"#      ", b"# 1    ", b"  #1 2 ", b"1#     ", b"123456 ", b" 123456", b"12345-6", b"-123456", b"##1    ",
            b"ABCDEFG", b"12 4567", b"#1#    ", b"#12345x", b"      #", b"\t     1",
        ],
        (Detail(_), _) => &[
            b"#     ", b"# 1   ", b"+00810", b" 00860", b" 0081 ", b"00810 ", b"081000", b"-     ", b"  0810",
            b"ABCDEF", b" 00872", b"#1x   ", b"x#1   ", b"     #", b"-00060",
        ],
        (Time, _) => &[
            b"+00810", b" 00860", b"-00899", b" 0081 ", b"00810 ", b"-     ", b"  0810", b" 008:1", b" A0810",
            b"000810",
        ],
        (AllOrNone, _) => &[b"FERRY ", b" FERRY", b"FE RY_", b"F     ", b"     Y"],
        (CrossOrBlank, _) => &[b"x", b"Y", b"0", b"%", b"\t"],
        (Percent, _) => &[b" ", b"&", b"$", b"*"],
        _ => &[b" "],
    }
}

/// "digits, both or neither blank"; "One or more repeats need an offset of at least 1".
fn mismatch(rng: &mut Rng, text: &mut Vec<u8>) {
    let pair: &[u8] = rng.pick::<&[u8]>(&[b"001    ", b"000    ", b"    001", b"    000", b"001 000", b"999 000"]);
    put(text, 23, pair);
}
