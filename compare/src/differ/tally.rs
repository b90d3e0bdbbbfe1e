//! How often each kind of answer came.

use std::collections::BTreeMap;
use std::fmt;

use super::columns::Columns;
use super::lent::{Call, Outcome};
use crate::generate::questions::{head_of, last_run};
use crate::generate::{Arithmetic, Question};
use crate::layout::{
    BIT_FIELDS_AT, BIT_FIELD_WORDS, HEADER_WORDS, KIND_AT, KIND_T, OFFSET_AT, REPEATS_AT, STOP_NAME_AT, STOP_NUMBER_AT,
    STOP_WORDS,
};
use crate::reader::fields::{self, LineKind};
use crate::reader::lines::{lines, skipped};
use crate::reader::Combination;

/// Every kind of answer that there is, by call: what it is called without a refusal, and its refusals. A "run" is a walk that was not
/// refused before 25, by the run that was asked for.
const ANSWERS: [(&str, &[&str], &[u32]); 12] = [
    (
        "load",
        &["accepted", "accepted *T", "accepted both", "accepted, ZUGART empty"],
        &[1, 2, 3, 4, 5, 6, 7, 8, 9, 10, 11, 12, 13, 14, 15, 16, 17, 18, 19, 20, 37, 38, 39, 51],
    ),
    ("day", &["runs", "rests"], &[21, 22, 23, 28]),
    ("interchange", &["minutes"], &[21, 26, 27]),
    ("between", &["minutes"], &[21, 27, 38]),
    ("name", &["first", "later"], &[21, 27, 39, 40, 41]),
    ("walk", &["rows", "not running"], &[21, 22, 23, 24, 25, 29, 31, 33, 34, 35, 36]),
    ("run", &RUNS, &[]),
    ("union", &["given"], &[42]),
    ("intersection", &["given"], &[42]),
    ("difference", &["given"], &[42]),
    ("complement", &["given"], &[42]),
    ("count", &["none", "some"], &[42]),
];

/// The calls that there are.
pub const CALLS: [&str; ANSWERS.len()] = {
    let mut calls = [""; ANSWERS.len()];
    let mut at = 0;
    while at < calls.len() {
        calls[at] = ANSWERS[at].0;
        at += 1;
    }
    calls
};

/// The runs of both kinds of services. *T: the last one "at the end" starts a whole running time after the first, "rounded up" is no
/// whole number of minutes late.
const RUNS: [&str; 12] = [
    "*Z first",
    "*Z later",
    "*Z last",
    "*Z next",
    "*Z far over",
    "*T first",
    "*T later",
    "*T rounded up",
    "*T last",
    "*T at the end",
    "*T next",
    "*T far over",
];

/// The answers counted, by the name of the call and of the answer, and the columns of refusals 4.
#[derive(Default)]
pub struct Tally {
    counts: BTreeMap<(&'static str, String), u64>,
    pub columns: Columns,
}

impl Tally {
    pub fn count(&mut self, call: &Call, outcome: &Outcome) {
        *self.counts.entry(kind(call, &outcome.answer)).or_insert(0) += 1;
        if let Call::Load { files, .. } = call {
            self.columns.count(files, &outcome.answer);
        }
        if let Some(run) = run_asked(call, &outcome.answer) {
            *self.counts.entry(("run", run.to_string())).or_insert(0) += 1;
        }
    }

    /// The kinds of answers of these calls that never came.
    pub fn missing(&self, calls: &[&str]) -> Vec<String> {
        let all = ANSWERS.iter().filter(|(call, _, _)| calls.contains(call)).flat_map(|(call, plain, refusals)| {
            let plain = plain.iter().map(|name| name.to_string());
            plain.chain(refusals.iter().map(|number| refused(*number))).map(move |answer| (*call, answer))
        });
        all.filter(|kind| !self.counts.contains_key(kind))
            .map(|(call, answer)| format!("{} {}", call, answer))
            .collect()
    }

    fn calls(&self, of: &str) -> u64 {
        self.counts.iter().filter(|((call, _), _)| *call == of).map(|(_, times)| times).sum()
    }
}

fn refused(number: u32) -> String {
    format!("refused {:2}", number)
}

/// Whether a stop's name field starts at this byte, by the first record of the stop; of words that are no table it does not matter.
fn starts_field(table: &[u32], stop: u32, start: u32) -> bool {
    let first = HEADER_WORDS as u64 + BIT_FIELD_WORDS as u64 * u64::from(*table.get(BIT_FIELDS_AT).unwrap_or(&0));
    let records = usize::try_from(first).ok().and_then(|first| table.get(first..)).unwrap_or(&[]);
    let record = records.chunks_exact(STOP_WORDS).find(|record| record[STOP_NUMBER_AT] == stop);
    record.map_or(false, |record| record[STOP_NAME_AT] == start)
}

/// Which of `RUNS` a walk asked for, where the table has the service and its head was looked at.
fn run_asked(call: &Call, answer: &[u32]) -> Option<&'static str> {
    let (table, service, run) = match (call, answer[0]) {
        (Call::Ask { table, question: Question::Walk { service, repeat, .. } }, 0 | 25 | 29) => {
            (table, *service, u64::from(*repeat))
        }
        _ => return None,
    };
    let head = head_of(table, service)?;
    let (last, seconds) = (last_run(head), run * u64::from(head[OFFSET_AT]));
    let at = match run {
        _ if run > last + 1 => [4, 11],
        _ if run > last => [3, 10],
        0 => [0, 5],
        _ if head[KIND_AT] == KIND_T && seconds == 60 * u64::from(head[REPEATS_AT]) => [9; 2],
        _ if run == last => [2, 8],
        _ if seconds % 60 > 0 => [1, 7],
        _ => [1, 6],
    };
    Some(RUNS[at[usize::from(head[KIND_AT] == KIND_T)]])
}

/// An accepted delivery, by the kinds of its services. Without categories it has none.
fn accepted(fplan: &[u8], zugart: &[u8]) -> &'static str {
    if lines(zugart).iter().all(|line| skipped(line.text)) {
        return "accepted, ZUGART empty";
    }
    let has = |kind: LineKind| lines(fplan).iter().any(|line| fields::kind(line.text) == kind);
    match (has(LineKind::T), has(LineKind::Z)) {
        (false, _) => "accepted",
        (true, false) => "accepted *T",
        (true, true) => "accepted both",
    }
}

fn kind(call: &Call, answer: &[u32]) -> (&'static str, String) {
    let (name, plain) = match call {
        Call::Load { .. } if answer[0] > 0 => ("load", ""),
        Call::Load { files, .. } => ("load", accepted(&files[4], &files[5])),
        Call::Ask { question: Question::Day { .. }, .. } => ("day", if answer[1] == 1 { "runs" } else { "rests" }),
        Call::Ask { question: Question::Interchange { .. }, .. } => ("interchange", "minutes"),
        Call::Ask { question: Question::Between { .. }, .. } => ("between", "minutes"),
        Call::Ask { question: Question::Walk { .. }, .. } => {
            ("walk", if answer[1] > 0 { "rows" } else { "not running" })
        }
        Call::Name { table, question, .. } => {
            ("name", if starts_field(table, question.stop, answer[1]) { "first" } else { "later" })
        }
        Call::Days(Arithmetic::Combine { of: Combination::Union, .. }) => ("union", "given"),
        Call::Days(Arithmetic::Combine { of: Combination::Intersection, .. }) => ("intersection", "given"),
        Call::Days(Arithmetic::Combine { of: Combination::Difference, .. }) => ("difference", "given"),
        Call::Days(Arithmetic::Complement { .. }) => ("complement", "given"),
        Call::Days(Arithmetic::Count { .. }) => ("count", if answer[1] > 0 { "some" } else { "none" }),
    };
    match answer[0] {
        0 => (name, plain.to_string()),
        number => (name, refused(number)),
    }
}

impl fmt::Display for Tally {
    fn fmt(&self, f: &mut fmt::Formatter<'_>) -> fmt::Result {
        for (of, _, _) in ANSWERS.iter().filter(|(of, _, _)| self.calls(of) > 0) {
            writeln!(f, "{}: {} calls", of, self.calls(of))?;
            for ((call, answer), times) in &self.counts {
                if call == of {
                    writeln!(f, "  {:<22} {:>9}", answer, times)?;
                }
            }
        }
        write!(f, "{}", self.columns)
    }
}
