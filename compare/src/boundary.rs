//! The boundary's functions as numbers, and the independent reader behind them.

use crate::reader::{self, Changed, Combination, DayAnswer, Loaded, Named, Refused, Walked};

/// Whatever answers as the archive does. An answer's numbers stand in the order of its fields.
pub trait Boundary {
    /// number, file, line, words, column
    fn load(&self, files: [&[u8]; 6], table: &mut [u32], helper: &mut [u32]) -> [u32; 5];

    /// number, runs
    fn day(&self, table: &[u32], date: [u32; 3], field: u32) -> [u32; 2];

    /// number, minutes
    fn interchange(&self, table: &[u32], stop: u32, classes: [u32; 2]) -> [u32; 2];

    /// number, minutes
    fn interchange_between(&self, table: &[u32], stop: u32, categories: [u32; 2]) -> [u32; 2];

    /// number, start, length; a language and a type are wanted
    fn stop_name(&self, table: &[u32], bahnhof: &[u8], stop: u32, wanted: [u32; 2]) -> [u32; 3];

    /// number, rows, needed
    fn walk(&self, table: &[u32], service: u32, repeat: u32, date: [u32; 3], rows: &mut [u32]) -> [u32; 3];

    /// number
    fn combine(&self, of: Combination, n: u32, first: &[u32], second: &[u32], result: &mut [u32]) -> [u32; 1];

    /// number
    fn complement(&self, n: u32, field: &[u32], result: &mut [u32]) -> [u32; 1];

    /// number, days
    fn day_count(&self, n: u32, field: &[u32]) -> [u32; 2];
}

/// The independent reader.
pub struct Reader;

impl Boundary for Reader {
    fn load(&self, files: [&[u8]; 6], table: &mut [u32], helper: &mut [u32]) -> [u32; 5] {
        match reader::load(files, table, helper) {
            Loaded::Accepted { words } => [0, 0, 0, words, 0],
            Loaded::Refused { number, file, line, column, needed } => [number, file, line, needed, size_word(column)],
        }
    }

    fn day(&self, table: &[u32], [day, month, year]: [u32; 3], field: u32) -> [u32; 2] {
        match reader::day(table, day, month, year, field) {
            DayAnswer::Runs => [0, 1],
            DayAnswer::Rests => [0, 0],
            DayAnswer::Refused { number } => [number, 0],
        }
    }

    fn interchange(&self, table: &[u32], stop: u32, [arriving, departing]: [u32; 2]) -> [u32; 2] {
        changed(reader::interchange(table, stop, arriving, departing))
    }

    fn interchange_between(&self, table: &[u32], stop: u32, [arriving, departing]: [u32; 2]) -> [u32; 2] {
        changed(reader::interchange_between(table, stop, arriving, departing))
    }

    fn stop_name(&self, table: &[u32], bahnhof: &[u8], stop: u32, [language, kind]: [u32; 2]) -> [u32; 3] {
        match reader::stop_name(table, bahnhof, stop, language, kind) {
            Named::Part { start, length } => [0, size_word(start), size_word(length)],
            Named::Refused { number } => [number, 0, 0],
        }
    }

    fn walk(&self, table: &[u32], service: u32, repeat: u32, date: [u32; 3], rows: &mut [u32]) -> [u32; 3] {
        let [day, month, year] = date;
        match reader::walk(table, service, repeat, day, month, year, rows) {
            Walked::Rows(listed) => [0, listed, 0],
            Walked::NotRunning => [0, 0, 0],
            Walked::Refused { number, needed } => [number, 0, needed],
        }
    }

    fn combine(&self, of: Combination, n: u32, first: &[u32], second: &[u32], result: &mut [u32]) -> [u32; 1] {
        number(reader::combine(of, n, first, second, result))
    }

    fn complement(&self, n: u32, field: &[u32], result: &mut [u32]) -> [u32; 1] {
        number(reader::complement(n, field, result))
    }

    fn day_count(&self, n: u32, field: &[u32]) -> [u32; 2] {
        match reader::day_count(n, field) {
            Ok(days) => [0, days],
            Err(Refused { number }) => [number, 0],
        }
    }
}

/// A column, or a place or length in a file, as a word. No file that is read has one that needs more.
pub fn size_word(size: usize) -> u32 {
    u32::try_from(size).unwrap_or(u32::MAX)
}

fn changed(answer: Changed) -> [u32; 2] {
    match answer {
        Changed::Minutes(minutes) => [0, minutes],
        Changed::Refused { number } => [number, 0],
    }
}

fn number(given: Result<(), Refused>) -> [u32; 1] {
    [given.map_or_else(|refused| refused.number, |_| 0)]
}
