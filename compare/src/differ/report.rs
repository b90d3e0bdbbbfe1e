//! A difference, told so that it can be run again.

use std::fs;
use std::io;
use std::path::Path;

use super::lent::Call;
use super::Difference;
use crate::files;
use crate::generate::{Arithmetic, NameQuestion, Question};

/// Tells a difference, with what was given written below a directory, and the command that takes a seed, a count and a first
/// case.
pub fn report(seed: u64, index: u64, difference: &Difference, below: &Path, command: &str) -> String {
    let directory = below.join(format!("{}-{}", seed, index));
    let written = match write_given(&difference.call, &directory) {
        Ok(()) => format!("what was given is in {}", directory.display()),
        Err(error) => format!("what was given could not be written to {}: {}", directory.display(), error),
    };
    let head =
        format!("case {} of seed {} differs, by {}: {}", index, seed, difference.by, call_text(&difference.call));
    let mut lines = vec![head];
    lines.extend(difference.expected.differs(&difference.found).into_iter().map(|line| format!("  {}", line)));
    lines.push(written);
    lines.push(format!("run again: {} {} 1 {}", command, seed, index));
    lines.join("\n")
}

fn call_text(call: &Call) -> String {
    match call {
        Call::Load { room, helper, .. } => format!("load into {} words, with {} helper words", room, helper.len()),
        Call::Ask { question, .. } => question_text(*question),
        Call::Name { bahnhof, question: NameQuestion { stop, language, kind }, .. } => {
            format!("name of {} in language {} of type {}, with {} bytes", stop, language, kind, bahnhof.len())
        }
        Call::Days(arithmetic) => arithmetic_text(arithmetic),
    }
}

fn arithmetic_text(arithmetic: &Arithmetic) -> String {
    match arithmetic {
        Arithmetic::Combine { of, n, room, .. } => format!("{:?} of {} days into {} words", of, n, room),
        Arithmetic::Complement { n, room, .. } => format!("complement in {} days into {} words", n, room),
        Arithmetic::Count { n, .. } => format!("count of {} days", n),
    }
}

fn question_text(question: Question) -> String {
    match question {
        Question::Day { date: [d, m, y], bitfield } => format!("day {}.{}.{} of bit field {}", d, m, y, bitfield),
        Question::Interchange { stop, classes: [a, b] } => format!("interchange at {} from class {} to {}", stop, a, b),
        Question::Between { stop, categories: [a, b] } => {
            format!("interchange at {} from category {:#08x} to {:#08x}", stop, a, b)
        }
        Question::Walk { service, repeat, date: [d, m, y], room } => {
            format!("walk of service {} repeat {} on {}.{}.{} into {} words", service, repeat, d, m, y, room)
        }
    }
}

/// The files under their names, and the helper words as decimal numbers in HELPER; the words asked in the same way in TABLE, with BAHNHOF;
/// or fields in FIRST, SECOND.
fn write_given(call: &Call, directory: &Path) -> io::Result<()> {
    if directory.exists() {
        fs::remove_dir_all(directory)?;
    }
    fs::create_dir_all(directory)?;
    match call {
        Call::Load { files, helper, .. } => {
            files::write(directory, files)?;
            fs::write(directory.join("HELPER"), words_text(helper))
        }
        Call::Ask { table, .. } => fs::write(directory.join("TABLE"), words_text(table)),
        Call::Name { table, bahnhof, .. } => {
            fs::write(directory.join("TABLE"), words_text(table))?;
            fs::write(directory.join("BAHNHOF"), bahnhof)
        }
        Call::Days(Arithmetic::Combine { first, second, .. }) => {
            fs::write(directory.join("FIRST"), words_text(first))?;
            fs::write(directory.join("SECOND"), words_text(second))
        }
        Call::Days(Arithmetic::Complement { field, .. } | Arithmetic::Count { field, .. }) => {
            fs::write(directory.join("FIRST"), words_text(field))
        }
    }
}

fn words_text(words: &[u32]) -> String {
    words.iter().map(u32::to_string).collect::<Vec<_>>().join("\n")
}
