//! "Lines and fields": fields by the paper's columns, counted from 1, both ends inside.

use super::bits::BitWords;
use super::calendar;

/// A time of six columns.
#[derive(Clone, Copy, Debug, PartialEq, Eq)]
pub enum Time {
    Absent,
    Stated { minutes: u32, barred: bool },
    Broken,
}

/// A *from* or *to* of seven columns.
#[derive(Clone, Copy, Debug, PartialEq, Eq)]
pub enum RangeEnd {
    Outer,
    Index(u32),
    Stop(u32),
    Broken,
}

/// The detail of six columns beside a stop number.
#[derive(Clone, Copy, Debug, PartialEq, Eq)]
pub enum Detail {
    Plain,
    Nth(u32),
    Timed(u32),
    Broken,
}

/// The date in columns 1-10.
#[derive(Clone, Copy, Debug, PartialEq, Eq)]
pub enum Date {
    Day(u32),
    NoSuchDate,
    Broken,
}

/// The kinds of FPLAN lines.
#[derive(Clone, Copy, Debug, PartialEq, Eq)]
pub enum LineKind {
    Z,
    T,
    G,
    A,
    Schedule,
    Other,
}

/// "columns past the end read as blank (a blank is byte 32)"
pub fn column(line: &[u8], c: usize) -> u8 {
    line.get(c - 1).copied().unwrap_or(b' ')
}

/// The bytes of columns a to b, filled up with blanks.
pub fn columns(line: &[u8], a: usize, b: usize) -> Vec<u8> {
    (a..=b).map(|c| column(line, c)).collect()
}

pub fn all_blank(line: &[u8], a: usize, b: usize) -> bool {
    (a..=b).all(|c| column(line, c) == b' ')
}

pub fn no_blank(line: &[u8], a: usize, b: usize) -> bool {
    (a..=b).all(|c| column(line, c) != b' ')
}

/// The value of one or more digits, at most nine of them.
fn number(bytes: &[u8]) -> Option<u32> {
    if bytes.is_empty() || !bytes.iter().all(u8::is_ascii_digit) {
        return None;
    }
    Some(bytes.iter().fold(0, |value, digit| 10 * value + u32::from(digit - b'0')))
}

fn trim_blanks_left(bytes: &[u8]) -> &[u8] {
    let blanks = bytes.iter().take_while(|byte| **byte == b' ').count();
    &bytes[blanks..]
}

fn trim_blanks_right(bytes: &[u8]) -> &[u8] {
    let blanks = bytes.iter().rev().take_while(|byte| **byte == b' ').count();
    &bytes[..bytes.len() - blanks]
}

/// "Digits: digits only."
pub fn digits(line: &[u8], a: usize, b: usize) -> Option<u32> {
    number(&columns(line, a, b))
}

/// "Count: any blanks, then at least one digit, to the field's end."
pub fn count(line: &[u8], a: usize, b: usize) -> Option<u32> {
    number(trim_blanks_left(&columns(line, a, b)))
}

/// ""#" and digits with blanks around"; "("#" always needs a digit)". Open point: no blanks between.
pub fn hashed(line: &[u8], a: usize, b: usize) -> Option<u32> {
    let field = columns(line, a, b);
    match trim_blanks_left(trim_blanks_right(&field)) {
        [b'#', rest @ ..] => number(rest),
        _ => None,
    }
}

/// "A time is blank, or a blank or "-" and five digits HHHMM with MM at most 59 ... Its value is 60 times HHH plus MM."
pub fn time(line: &[u8], a: usize) -> Time {
    if all_blank(line, a, a + 5) {
        return Time::Absent;
    }
    let barred = match column(line, a) {
        b' ' => false,
        b'-' => true,
        _ => return Time::Broken,
    };
    match (digits(line, a + 1, a + 3), digits(line, a + 4, a + 5)) {
        (Some(hours), Some(minutes)) if minutes <= 59 => Time::Stated { minutes: 60 * hours + minutes, barred },
        _ => Time::Broken,
    }
}

/// "A *from* or *to* is blank (first, last call), "#" and digits with blanks around (route index from 0), or seven
/// digits (stop)."
pub fn range_end(line: &[u8], a: usize) -> RangeEnd {
    if all_blank(line, a, a + 6) {
        RangeEnd::Outer
    } else if let Some(index) = hashed(line, a, a + 6) {
        RangeEnd::Index(index)
    } else if let Some(stop) = digits(line, a, a + 6) {
        RangeEnd::Stop(stop)
    } else {
        RangeEnd::Broken
    }
}

/// "For a stop the detail says: blank ...; "#" and digits with blanks around, that appearance ...; a time".
pub fn detail(line: &[u8], a: usize) -> Detail {
    if let Some(nth) = hashed(line, a, a + 5) {
        return Detail::Nth(nth);
    }
    match time(line, a) {
        Time::Absent => Detail::Plain,
        // "minutes only, sign not compared"
        Time::Stated { minutes, .. } => Detail::Timed(minutes),
        Time::Broken => Detail::Broken,
    }
}

/// ECKDATEN "1-10 DD.MM.YYYY". Open point: 00.00.0000 has the form, and is no such date.
pub fn date(line: &[u8]) -> Date {
    let dots = column(line, 3) == b'.' && column(line, 6) == b'.';
    match (digits(line, 1, 2), digits(line, 4, 5), digits(line, 7, 10)) {
        (Some(day), Some(month), Some(year)) if dots => match calendar::day_number(day, month, year) {
            Some(number) => Date::Day(number),
            None => Date::NoSuchDate,
        },
        _ => Date::Broken,
    }
}

fn hex_digit(byte: u8) -> Option<u32> {
    match byte {
        b'0'..=b'9' => Some(u32::from(byte - b'0')),
        b'A'..=b'F' => Some(u32::from(byte - b'A') + 10),
        _ => None,
    }
}

/// "hex digits 0-9 A-F", 96 of them, "first hex digit's high bit first".
pub fn hex_words(line: &[u8], a: usize) -> Option<BitWords> {
    let mut words = [0; 12];
    for (i, byte) in columns(line, a, a + 95).into_iter().enumerate() {
        words[i / 8] = words[i / 8] << 4 | hex_digit(byte)?;
    }
    Some(words)
}

/// "Bytes share a word first byte highest."
pub fn packed(line: &[u8], a: usize, b: usize) -> u32 {
    columns(line, a, b).into_iter().fold(0, |word, byte| word << 8 | u32::from(byte))
}

/// "Which kind a line is follows from its first bytes: "*Z ", "*G ", "*A " or a digit", and document 02, No. 8: "services
/// opened by *T". Open point: columns past the end read as blank here too.
pub fn kind(line: &[u8]) -> LineKind {
    match (column(line, 1), column(line, 2), column(line, 3)) {
        (b'*', b'Z', b' ') => LineKind::Z,
        (b'*', b'T', b' ') => LineKind::T,
        (b'*', b'G', b' ') => LineKind::G,
        (b'*', b'A', b' ') => LineKind::A,
        (b'0'..=b'9', _, _) => LineKind::Schedule,
        _ => LineKind::Other,
    }
}

/// ""VE" means operating days"
pub fn means_days(line: &[u8]) -> bool {
    columns(line, 4, 5) == b"VE"
}

/// *Z "23-25 repeats and 27-29 offset: digits, both or neither blank". "Blank repeats mean 0 and 0. One or more
/// repeats need an offset of at least 1, else 4." `None` where one of these breaks.
pub fn repeats_and_offset(line: &[u8]) -> Option<(u32, u32)> {
    if all_blank(line, 23, 25) && all_blank(line, 27, 29) {
        return Some((0, 0));
    }
    match (digits(line, 23, 25)?, digits(line, 27, 29)?) {
        (repeats, 0) if repeats > 0 => None,
        fitting => Some(fitting),
    }
}

/// *T "running time in minutes 17-20, density in seconds 22-25. Both are digits" (document 02, No. 8).
pub fn running_time(line: &[u8]) -> Option<u32> {
    digits(line, 17, 20)
}

/// "density is at least 1"
pub fn density(line: &[u8]) -> Option<u32> {
    digits(line, 22, 25).filter(|seconds| *seconds >= 1)
}

/// "digits or blank"; blank is `Some(0)`. "A blank bit field means 000000, daily."
pub fn digits_or_blank(line: &[u8], a: usize, b: usize) -> Option<u32> {
    if all_blank(line, a, b) {
        Some(0)
    } else {
        digits(line, a, b)
    }
}
