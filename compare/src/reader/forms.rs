//! The form of each kind of line (refusal 4), and the column where it breaks: `None` if the form holds, else the
//! column from 1 where the leftmost field or unnamed column that breaks it starts (document 02, No. 6).

use super::fields::{
    all_blank, column, count, date, density, detail, digits, digits_or_blank, hex_words, no_blank, range_end,
    repeats_and_offset, running_time, time, Date, Detail, RangeEnd, Time,
};

/// No. 1: "class 5-6 (count to 13)"; 26: "class over 13".
pub const MOST_CLASS: u32 = 13;

/// A field counts at the column where it starts.
fn field(start: usize, holds: bool) -> Option<usize> {
    if holds {
        None
    } else {
        Some(start)
    }
}

/// "Columns named by no field are blank": the first of a to b that is not.
fn unnamed(line: &[u8], a: usize, b: usize) -> Option<usize> {
    (a..=b).find(|c| column(line, *c) != b' ')
}

fn leftmost(breaks: &[Option<usize>]) -> Option<usize> {
    breaks.iter().flatten().min().copied()
}

/// ECKDATEN lines 1 and 2: "1-10 DD.MM.YYYY, rest free".
pub fn form_date(line: &[u8]) -> Option<usize> {
    field(1, date(line) != Date::Broken)
}

/// BITFELD: "1-6 digits, 8-103 hex digits 0-9 A-F"; nothing names the columns from 104 on.
pub fn form_bitfield(line: &[u8]) -> Option<usize> {
    leftmost(&[
        field(1, digits(line, 1, 6).is_some()),
        unnamed(line, 7, 7),
        field(8, hex_words(line, 8).is_some()),
        unnamed(line, 104, line.len()),
    ])
}

/// BAHNHOF: "1-7 digits, 9-11 free, 13-62 name not all blank, from 63 free".
pub fn form_stop(line: &[u8]) -> Option<usize> {
    leftmost(&[
        field(1, digits(line, 1, 7).is_some()),
        unnamed(line, 8, 8),
        unnamed(line, 12, 12),
        field(13, !all_blank(line, 13, 62)),
    ])
}

/// UMSTEIGB: "1-7 digits, 9-10 count to 60, 12-13 count, from 15 free".
pub fn form_interchange(line: &[u8]) -> Option<usize> {
    leftmost(&[
        field(1, digits(line, 1, 7).is_some()),
        unnamed(line, 8, 8),
        field(9, count(line, 9, 10).map_or(false, |minutes| minutes <= 60)),
        unnamed(line, 11, 11),
        field(12, count(line, 12, 13).is_some()),
        unnamed(line, 14, 14),
    ])
}

/// ZUGART (document 02, No. 1): "code 1-3 (column 1 not blank), class 5-6 (count to 13), tariff group 8 (A to H or blank), output
/// control 10 (0 to 7), output text 12-19 (any), supplement 21 (0 to 2), flag 23 (N, B, F or blank), and from 25 free".
pub fn form_category(line: &[u8]) -> Option<usize> {
    leftmost(&[
        field(1, column(line, 1) != b' '),
        unnamed(line, 4, 4),
        field(5, count(line, 5, 6).map_or(false, |class| class <= MOST_CLASS)),
        unnamed(line, 7, 7),
        field(8, matches!(column(line, 8), b'A'..=b'H' | b' ')),
        unnamed(line, 9, 9),
        field(10, matches!(column(line, 10), b'0'..=b'7')),
        unnamed(line, 11, 11),
        unnamed(line, 20, 20),
        field(21, matches!(column(line, 21), b'0'..=b'2')),
        unnamed(line, 22, 22),
        field(23, matches!(column(line, 23), b'N' | b'B' | b'F' | b' ')),
        unnamed(line, 24, 24),
    ])
}

/// "In FPLAN column 59 is "%" and anything may follow."
fn percent(line: &[u8]) -> Option<usize> {
    field(59, column(line, 59) == b'%')
}

/// *Z: "4-8 digits, 10-15 six non-blank bytes, 23-25 repeats and 27-29 offset: digits, both or neither blank".
pub fn form_z(line: &[u8]) -> Option<usize> {
    leftmost(&[
        field(4, digits(line, 4, 8).is_some()),
        unnamed(line, 9, 9),
        field(10, no_blank(line, 10, 15)),
        unnamed(line, 16, 22),
        field(23, digits_or_blank(line, 23, 25).is_some()),
        unnamed(line, 26, 26),
        field(27, digits_or_blank(line, 27, 29).is_some()),
        // No. 6: "for repeats and offset that do not fit each other, 27"
        field(27, repeats_and_offset(line).is_some()),
        unnamed(line, 30, 58),
        percent(line),
    ])
}

/// *T (document 02, No. 8): number and administration as in a *Z line (5.3.3), "running time in minutes 17-20, density in
/// seconds 22-25"; nothing names 9, 16, 21 and 26-58.
pub fn form_t(line: &[u8]) -> Option<usize> {
    leftmost(&[
        field(4, digits(line, 4, 8).is_some()),
        unnamed(line, 9, 9),
        field(10, no_blank(line, 10, 15)),
        unnamed(line, 16, 16),
        field(17, running_time(line).is_some()),
        unnamed(line, 21, 21),
        field(22, density(line).is_some()),
        unnamed(line, 26, 58),
        percent(line),
    ])
}

/// "A detail has one of these forms; with no stop number it is not read and may hold anything."
fn form_detail(line: &[u8], end: usize, start: usize) -> Option<usize> {
    let read = matches!(range_end(line, end), RangeEnd::Stop(_));
    field(start, !read || detail(line, start) != Detail::Broken)
}

fn form_end(line: &[u8], start: usize) -> Option<usize> {
    field(start, range_end(line, start) != RangeEnd::Broken)
}

/// *G: "4-6 category (4 not blank), 8-14 from, 16-22 to, 24-29 from-detail, 31-36 to-detail".
pub fn form_g(line: &[u8]) -> Option<usize> {
    leftmost(&[
        field(4, column(line, 4) != b' '),
        unnamed(line, 7, 7),
        form_end(line, 8),
        unnamed(line, 15, 15),
        form_end(line, 16),
        unnamed(line, 23, 23),
        form_detail(line, 8, 24),
        unnamed(line, 30, 30),
        form_detail(line, 16, 31),
        unnamed(line, 37, 58),
        percent(line),
    ])
}

/// *A: "4-5 code (4 not blank ...), 7-13 from, 15-21 to, 23-28 bit field digits or blank, 30-35 and 37-42 details".
pub fn form_a(line: &[u8]) -> Option<usize> {
    leftmost(&[
        field(4, column(line, 4) != b' '),
        unnamed(line, 6, 6),
        form_end(line, 7),
        unnamed(line, 14, 14),
        form_end(line, 15),
        unnamed(line, 22, 22),
        field(23, digits_or_blank(line, 23, 28).is_some()),
        unnamed(line, 29, 29),
        form_detail(line, 7, 30),
        unnamed(line, 36, 36),
        form_detail(line, 15, 37),
        unnamed(line, 43, 58),
        percent(line),
    ])
}

/// Schedule: "1-7 digits, 9-29 free, 30-35 arrival, 37-42 departure, 44-48 digits or blank, 50-55 all or no blanks,
/// 57 X or blank".
pub fn form_schedule(line: &[u8]) -> Option<usize> {
    leftmost(&[
        field(1, digits(line, 1, 7).is_some()),
        unnamed(line, 8, 8),
        field(30, time(line, 30) != Time::Broken),
        unnamed(line, 36, 36),
        field(37, time(line, 37) != Time::Broken),
        unnamed(line, 43, 43),
        field(44, digits_or_blank(line, 44, 48).is_some()),
        unnamed(line, 49, 49),
        field(50, all_blank(line, 50, 55) || no_blank(line, 50, 55)),
        unnamed(line, 56, 56),
        field(57, matches!(column(line, 57), b'X' | b' ')),
        unnamed(line, 58, 58),
        percent(line),
    ])
}
