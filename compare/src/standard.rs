//! The standard's printed examples (document 001), set to the columns of document 01, over a boundary: what is refused, for
//! the reason that document 01 gives; and the mended ones, accepted and walked as printed.

mod categories;
mod files;
mod frequency;
mod services;

use crate::boundary::Boundary;
use crate::layout::{HELPER_HEAD_WORDS, HELPER_LINE_WORDS};

/// One example: what it must bring, and what it brought.
pub struct Checked {
    pub text: String,
    pub expected: Vec<u32>,
    pub found: Vec<u32>,
}

impl Checked {
    fn new(text: &str, expected: &[u32], found: &[u32]) -> Checked {
        Checked { text: text.to_string(), expected: expected.to_vec(), found: found.to_vec() }
    }

    pub fn holds(&self) -> bool {
        self.expected == self.found
    }
}

/// All examples, in the order of the standard's sections.
pub fn examples(boundary: &dyn Boundary) -> Vec<Checked> {
    let sections = [
        files::stops,
        services::service_1554,
        frequency::service_1554,
        services::service_114_refused,
        services::service_114_mended,
        frequency::regions,
        frequency::on_call,
        files::period,
        files::saturdays,
        categories::category,
        categories::further_lines,
        categories::between,
        files::interchange_times,
    ];
    sections.iter().flat_map(|section| section(boundary)).collect()
}

/// The files of an example.
#[derive(Clone)]
struct Paper {
    files: [Vec<u8>; 6],
}

/// What words hold that no load has written.
const LENT: u32 = 0xAAAA_AAAA;

/// Helper words: enough for a hundred lines.
const HELPER: usize = HELPER_HEAD_WORDS + HELPER_LINE_WORDS * 100;

impl Paper {
    /// 5.4.1's period and 5.7's first record; no bit fields, stops, services and categories.
    fn new() -> Paper {
        let eckdaten =
            latin(&["30.09.1996 start of timetable", "01.06.1997 end of timetable", "\"Test timetable 1996/97\""]);
        let umsteigb = latin(&["9999999  2  3 STANDARD"]);
        Paper { files: [eckdaten, Vec::new(), Vec::new(), umsteigb, Vec::new(), Vec::new()] }
    }

    /// The same with another file, 1 to 6.
    fn with<T: AsRef<str>>(mut self, file: usize, lines: &[T]) -> Paper {
        self.files[file - 1] = latin(lines);
        self
    }

    fn load(&self, boundary: &dyn Boundary) -> ([u32; 5], Vec<u32>) {
        let (mut table, mut helper) = (vec![LENT; 2_000], vec![LENT; HELPER]);
        let [a, b, c, d, e, f] = &self.files;
        let answer = boundary.load([a, b, c, d, e, f], &mut table, &mut helper);
        (answer, table)
    }

    /// Number, file, line and column of the refusal that it must bring, with no word changed.
    fn refused(&self, boundary: &dyn Boundary, text: &str, [number, file, line, column]: [u32; 4]) -> Checked {
        let (answer, table) = self.load(boundary);
        let changed = table.iter().filter(|word| **word != LENT).count() as u32;
        let [number_found, file_found, line_found, words, column_found] = answer;
        Checked::new(
            &format!("{}: refused {} file {} line {} column {}", text, number, file, line, column),
            &[number, file, line, column, 0, 0],
            &[number_found, file_found, line_found, column_found, words, changed],
        )
    }

    /// The words used that it must bring, with no later word changed; and the table.
    fn accepted(&self, boundary: &dyn Boundary, text: &str, words: usize) -> (Checked, Vec<u32>) {
        let (answer, table) = self.load(boundary);
        let later = table[words..].iter().filter(|word| **word != LENT).count() as u32;
        let [number, _, _, used, _] = answer;
        (Checked::new(&format!("{}: accepted", text), &[0, words as u32, 0], &[number, used, later]), table)
    }
}

/// A file of lines whose characters are bytes, as in the standard's time: one column each.
fn latin<T: AsRef<str>>(lines: &[T]) -> Vec<u8> {
    let mut bytes = Vec::new();
    for line in lines {
        bytes.extend(line.as_ref().chars().map(|character| character as u8));
        bytes.push(b'\n');
    }
    bytes
}
