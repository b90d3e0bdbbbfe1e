//! The reader's answer to each question, brought into the library's shape through the paper's meaning.

use super::question::{number, three, told, Answer, Question, What};
use crate::reader::bits::{bit, frame_ok, runs_on, BitWords, BITS};
use crate::reader::calendar::{day_number, period, MOST_PERIOD_DAYS};
use crate::reader::fields::{
    all_blank, column, columns, count, date, detail, digits, hex_words, kind, no_blank, range_end, time, Date, Detail,
    LineKind, RangeEnd, Time,
};
use crate::reader::forms::{
    form_a, form_bitfield, form_category, form_date, form_g, form_interchange, form_schedule, form_stop, form_t, form_z,
};
use crate::reader::lines::{lines, skipped};

pub fn answer(question: &Question) -> Answer {
    let line = question.bytes;
    let [a, b, c, m] = question.numbers;
    let (from, to) = (a as usize, b as usize);
    match question.what {
        What::Step => step(line, from, b),
        What::Skips => flag(skipped(line)),
        What::Column => number(u32::from(column(line, from))),
        What::Number => number(number_in(line, from, to)),
        What::Count => flag(count(line, from, to).map_or(false, |value| value <= c)),
        What::Every => flag(every(line, from, to, c, m as u8)),
        What::Time => flat_time(time(line, from)),
        What::RangeEnd => flat_end(range_end(line, from)),
        What::Detail => flat_detail(detail(line, from)),
        What::Kind => number(flat_kind(kind(line))),
        What::Form => number(form(line, a).unwrap_or(0) as u32),
        What::Day => some_or_none(day_number(a, b, c)),
        What::Date => some_or_none(date_in(line)),
        What::Period => some_or_none(period(a, b)),
        What::Bits => bits_in(line),
        _ => bit_answer(question, a),
    }
}

fn bit_answer(question: &Question, k: u32) -> Answer {
    // The library asks for a day or a number of days of a period, which "has 1 to 380"; the probe answers no to others.
    let at_most = |most: u32, holds: fn(&BitWords, u32) -> bool| flag(k <= most && holds(&question.words(0), k));
    match question.what {
        What::Bit => flag(bit(&question.words(0), k)),
        What::Runs => at_most(MOST_PERIOD_DAYS - 1, runs_on),
        What::Framed => at_most(MOST_PERIOD_DAYS, frame_ok),
        What::SomeDay => at_most(MOST_PERIOD_DAYS, |words, n| (0..n).any(|d| runs_on(words, d))),
        What::NoBits => joined(|_| false),
        What::AllBits => joined(|_| true),
        What::Either => joined(|k| bit(&question.words(0), k) || bit(&question.words(1), k)),
        What::Both => joined(|k| bit(&question.words(0), k) && bit(&question.words(1), k)),
        _ => joined(|k| bit(&question.words(0), k) && !bit(&question.words(1), k)),
    }
}

/// The words with these bits, "bit 0 the highest of the first word".
fn joined(has: impl Fn(u32) -> bool) -> Answer {
    let mut words = [0; 12];
    for k in (0..BITS).filter(|k| has(*k)) {
        words[(k / 32) as usize] |= 0x8000_0000 >> (k % 32);
    }
    words
}

fn flag(holds: bool) -> Answer {
    number(u32::from(holds))
}

fn some_or_none(value: Option<u32>) -> Answer {
    value.map_or(told(0, 0), |value| told(1, value))
}

/// The library goes on from any place: what starts there is read as a file of its own. Its first line stops where its
/// text does, and the next starts where its second does, or is none. The probe answers zeros where there is no such
/// place or no next line number.
fn step(file: &[u8], at: usize, no: u32) -> Answer {
    if at > file.len() || no == u32::MAX {
        return three(0, 0, 0);
    }
    let rest = lines(&file[at..]);
    let stop = at + rest.first().map_or(0, |line| line.text.len());
    let next = rest.get(1).map_or(file.len(), |line| at + line.start);
    three(stop as u32, next as u32, no + 1)
}

/// The reader says a number where the paper does: of digits and of a count. The library promises one for any bytes, in
/// which a byte that is no digit counts as the digit 0. The probe answers u32::MAX for over nine columns.
fn number_in(line: &[u8], a: usize, b: usize) -> u32 {
    if b + 1 - a > 9 {
        return u32::MAX;
    }
    let said = digits(line, a, b).or_else(|| count(line, a, b));
    said.unwrap_or_else(|| {
        let field = with_zeros(line, a, b, |byte| byte.is_ascii_digit());
        digits(&field, 1, field.len()).unwrap_or(0)
    })
}

/// Columns a to b with "0" for each byte that does not fit.
fn with_zeros(line: &[u8], a: usize, b: usize, fits: impl Fn(u8) -> bool) -> Vec<u8> {
    columns(line, a, b).into_iter().map(|byte| if fits(byte) { byte } else { b'0' }).collect()
}

/// At most nine columns of digits, at most 96 hex digits; the reader knows these only in fields.
fn every(line: &[u8], a: usize, b: usize, class: u32, byte: u8) -> bool {
    match class {
        0 => digits(line, a, b).is_some(),
        1 => {
            let mut field = columns(line, a, b);
            field.resize(96, b'0');
            hex_words(&field, 1).is_some()
        }
        2 => no_blank(line, a, b),
        _ if byte == b' ' => all_blank(line, a, b),
        _ => columns(line, a, b).iter().all(|other| *other == byte),
    }
}

fn flat_time(time: Time) -> Answer {
    match time {
        Time::Absent => told(0, 0),
        Time::Stated { minutes, barred: false } => told(1, minutes),
        Time::Stated { minutes, barred: true } => told(2, minutes),
        Time::Broken => told(3, 0),
    }
}

fn flat_end(end: RangeEnd) -> Answer {
    match end {
        RangeEnd::Outer => told(0, 0),
        RangeEnd::Index(index) => told(1, index),
        RangeEnd::Stop(stop) => told(2, stop),
        RangeEnd::Broken => told(3, 0),
    }
}

fn flat_detail(detail: Detail) -> Answer {
    match detail {
        Detail::Plain => told(0, 0),
        Detail::Nth(nth) => told(1, nth),
        Detail::Timed(minutes) => told(2, minutes),
        Detail::Broken => told(3, 0),
    }
}

fn flat_kind(kind: LineKind) -> u32 {
    match kind {
        LineKind::Other => 0,
        LineKind::Z => 1,
        LineKind::G => 2,
        LineKind::A => 3,
        LineKind::Schedule => 4,
        LineKind::T => 5,
    }
}

fn form(line: &[u8], kind: u32) -> Option<usize> {
    let forms = [
        form_date,
        form_bitfield,
        form_stop,
        form_interchange,
        form_z,
        form_g,
        form_a,
        form_schedule,
        form_t,
        form_category,
    ];
    forms[kind as usize](line)
}

/// The reader tells a date that breaks the form from one that does not exist. The library's form is asked for by
/// itself, and its date takes any bytes, a byte that is no digit as the digit 0.
fn date_in(line: &[u8]) -> Option<u32> {
    match date(line) {
        Date::Day(day) => Some(day),
        Date::NoSuchDate => None,
        Date::Broken => day_number(number_in(line, 1, 2), number_in(line, 4, 5), number_in(line, 7, 10)),
    }
}

/// Where the reader finds no 96 hex digits, the library promises words in which any other byte is the hex digit 0.
fn bits_in(line: &[u8]) -> Answer {
    let hex = |byte| matches!(byte, b'0'..=b'9' | b'A'..=b'F');
    hex_words(line, 8).or_else(|| hex_words(&with_zeros(line, 8, 103, hex), 1)).unwrap_or([0; 12])
}
