//! One call of the library, as bytes and numbers, so that it can be printed and asked again.

use crate::reader::bits::BitWords;

/// What is asked. The comments give the numbers, and the bytes where they are not those of a line.
#[derive(Clone, Copy, Debug, PartialEq, Eq)]
pub enum What {
    /// A file's line from a place on: place, line number.
    Step,
    Skips,
    /// Column.
    Column,
    /// Columns a, b.
    Number,
    /// Columns a, b, highest.
    Count,
    /// Columns a, b, class (0 digits, 1 hex digits, 2 not blank, 3 one byte), byte.
    Every,
    /// Columns a, b; so the next two.
    Time,
    RangeEnd,
    Detail,
    Kind,
    /// Line kind: its place in `LINE_KINDS`.
    Form,
    /// Day, month, year.
    Day,
    Date,
    /// First day, last day.
    Period,
    Bits,
    /// A bit field's 48 bytes; bit.
    Bit,
    /// A bit field; day.
    Runs,
    /// A bit field; days. So the next.
    Framed,
    SomeDay,
    NoBits,
    AllBits,
    /// Two bit fields; so the next two.
    Either,
    Both,
    Without,
}

/// Every question with its name and the names of its kinds of answers (see `Question::kind_of`).
pub const WHATS: [(What, &str, &[&str]); 24] = [
    (What::Step, "step", &["outside", "line"]),
    (What::Skips, "skips", &["no", "yes"]),
    (What::Column, "column", &["blank", "filled"]),
    (What::Number, "number", &["zero", "more", "too wide"]),
    (What::Count, "count", &["no", "yes"]),
    (What::Every, "every", &["no", "yes"]),
    (What::Time, "time", &["absent", "stated", "barred", "broken"]),
    (What::RangeEnd, "range-end", &["outer", "index", "stop", "broken"]),
    (What::Detail, "detail", &["plain", "nth", "timed", "broken"]),
    (What::Kind, "kind", &["other", "*Z", "*G", "*A", "call", "*T"]),
    (What::Form, "form", &["fits", "broken"]),
    (What::Day, "day", &["none", "day"]),
    (What::Date, "date", &["none", "day"]),
    (What::Period, "period", &["none", "days"]),
    (What::Bits, "bits", &["empty", "some"]),
    (What::Bit, "bit", &["no", "yes"]),
    (What::Runs, "runs", &["no", "yes"]),
    (What::Framed, "framed", &["no", "yes"]),
    (What::SomeDay, "some-day", &["no", "yes"]),
    (What::NoBits, "no-bits", &["words"]),
    (What::AllBits, "all-bits", &["words"]),
    (What::Either, "either", &["empty", "some"]),
    (What::Both, "both", &["empty", "some"]),
    (What::Without, "without", &["empty", "some"]),
];

/// The kinds of lines that have a form.
pub const LINE_KINDS: [&str; 10] =
    ["date", "bitfield", "stop", "interchange", "*Z", "*G", "*A", "call", "*T", "category"];

/// Twelve words of a bit field, or in front: a number; or a case of an enum and its value; or stop, next and number.
pub type Answer = [u32; 12];

#[derive(Clone, Copy, Debug)]
pub struct Question<'a> {
    pub what: What,
    pub bytes: &'a [u8],
    pub numbers: [u32; 4],
}

pub fn number(value: u32) -> Answer {
    told(value, 0)
}

pub fn told(kind: u32, value: u32) -> Answer {
    three(kind, value, 0)
}

pub fn three(a: u32, b: u32, c: u32) -> Answer {
    let mut answer = [0; 12];
    answer[..3].copy_from_slice(&[a, b, c]);
    answer
}

/// A question with fewer than four numbers.
pub fn about<'a>(what: What, bytes: &'a [u8], given: &[u32]) -> Question<'a> {
    let mut numbers = [0; 4];
    numbers[..given.len()].copy_from_slice(given);
    Question { what, bytes, numbers }
}

/// The bytes of bit fields, first byte highest.
pub fn bit_bytes(fields: &[BitWords]) -> Vec<u8> {
    fields.iter().flatten().flat_map(|word| word.to_be_bytes()).collect()
}

impl Question<'_> {
    /// The nth bit field among the bytes.
    pub fn words(&self, nth: usize) -> BitWords {
        let mut words = [0; 12];
        for (word, bytes) in words.iter_mut().zip(self.bytes[48 * nth..].chunks(4)) {
            *word = bytes.iter().fold(0, |high, byte| high << 8 | u32::from(*byte));
        }
        words
    }

    /// The place of an answer among the names of this question's kinds of answers.
    pub fn kind_of(&self, answer: &Answer) -> usize {
        let first = answer[0] as usize;
        match self.what {
            What::Step => answer[2].min(1) as usize,
            What::Column => usize::from(first != 32),
            What::Number if answer[0] == u32::MAX => 2,
            What::Number | What::Form => first.min(1),
            What::NoBits | What::AllBits => 0,
            What::Bits | What::Either | What::Both | What::Without => usize::from(answer.iter().any(|word| *word != 0)),
            _ => first,
        }
    }

    /// Its words on a command line: name, bytes in hex ("-" for none), numbers.
    pub fn text(&self) -> String {
        let name = WHATS[self.what as usize].1;
        let mut hex: String = self.bytes.iter().map(|byte| format!("{:02x}", byte)).collect();
        if hex.is_empty() {
            hex.push('-');
        }
        let numbers: Vec<String> = self.numbers.iter().map(u32::to_string).collect();
        format!("{} {} {}", name, hex, numbers.join(" "))
    }
}

/// The question that `Question::text` wrote: what, bytes and numbers.
pub fn parse(words: &[String]) -> Option<(What, Vec<u8>, [u32; 4])> {
    let (name, hex) = (words.first()?, words.get(1)?);
    let what = WHATS.iter().find(|entry| entry.1 == name)?.0;
    let mut numbers = [0; 4];
    for (number, word) in numbers.iter_mut().zip(&words[2..]) {
        *number = word.parse().ok()?;
    }
    Some((what, parse_hex(hex)?, numbers))
}

fn parse_hex(hex: &str) -> Option<Vec<u8>> {
    if hex == "-" {
        return Some(Vec::new());
    }
    let pairs = (0..hex.len()).step_by(2);
    pairs.map(|at| u8::from_str_radix(hex.get(at..at + 2)?, 16).ok()).collect()
}
