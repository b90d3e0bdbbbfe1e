//! The functions of requests 9, 11 and 12 and the quick questions as numbers, and the independent reader behind those that it has an answer of its own for. A trait for each that
//! comes by itself; `Boundary` has the others.

use crate::reader::{self, BoardQuestion, Boarded, Connected, Indexed, Written};

/// The index of a table.
pub trait Indexes {
    /// number, words
    fn index(&self, table: &[u32], lent: &mut [u32]) -> [u64; 2];

    /// number
    fn check_index(&self, table: &[u32], index: &[u32]) -> [u64; 1];
}

/// Questions by an index; answers as those of `Boundary`.
pub trait Quick {
    fn day(&self, table: &[u32], index: &[u32], date: [u32; 3], field: u32) -> [u32; 2];

    fn interchange(&self, table: &[u32], index: &[u32], stop: u32, classes: [u32; 2]) -> [u32; 2];

    fn interchange_between(&self, table: &[u32], index: &[u32], stop: u32, categories: [u32; 2]) -> [u32; 2];

    fn stop_name(&self, table: &[u32], index: &[u32], bahnhof: &[u8], stop: u32, wanted: [u32; 2]) -> [u32; 3];

    fn walk(
        &self,
        table: &[u32],
        index: &[u32],
        service: u32,
        repeat: u32,
        date: [u32; 3],
        rows: &mut [u32],
    ) -> [u32; 3];
}

/// Departure boards.
pub trait Boards {
    /// number, rows, needed
    fn board(&self, table: &[u32], index: &[u32], asked: &BoardQuestion, list: &mut [u32]) -> [u64; 3];
}

/// Proposed connections.
pub trait Connections {
    /// number, part; a plain question has no use for the index
    fn connection(&self, table: &[u32], index: &[u32], parts: &[u32]) -> [u32; 2];
}

/// FPLAN written.
pub trait Writes {
    /// number, bytes
    fn write(&self, table: &[u32], text: &mut [u8]) -> [u64; 2];
}

/// The independent reader.
pub use crate::boundary::Reader;

impl Indexes for Reader {
    fn index(&self, table: &[u32], lent: &mut [u32]) -> [u64; 2] {
        match reader::index(table, lent) {
            Indexed::Words(words) => [0, words as u64],
            Indexed::Refused { number, needed } => [number.into(), needed as u64],
        }
    }

    fn check_index(&self, table: &[u32], index: &[u32]) -> [u64; 1] {
        [reader::check_index(table, index).into()]
    }
}

impl Boards for Reader {
    fn board(&self, table: &[u32], index: &[u32], asked: &BoardQuestion, list: &mut [u32]) -> [u64; 3] {
        board_words(reader::board(table, index, asked, list))
    }
}

/// The answer of a board as numbers.
pub fn board_words(answer: Boarded) -> [u64; 3] {
    match answer {
        Boarded::Rows(rows) => [0, rows as u64, 0],
        Boarded::Refused { number, needed } => [number.into(), 0, needed as u64],
    }
}

impl Connections for Reader {
    fn connection(&self, table: &[u32], _: &[u32], parts: &[u32]) -> [u32; 2] {
        match reader::connection(table, parts) {
            Connected::Holds => [0, 0],
            Connected::Refused { number, part } => [number, part],
        }
    }
}

impl Writes for Reader {
    fn write(&self, table: &[u32], text: &mut [u8]) -> [u64; 2] {
        match reader::write(table, text) {
            Written::Bytes(bytes) => [0, bytes as u64],
            Written::Refused { number, needed } => [number.into(), needed as u64],
        }
    }
}
