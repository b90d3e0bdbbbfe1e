//! An ordinary loader of document 01's rules, with maps: each file is read once, line by line, numbers are looked up in a
//! `HashMap`, and the table is built in a `Vec` and copied to the words lent. Document 02, No. 13 asks for it: the proved
//! loader should take at most three times as long. A `Timetable` made of the table answers the questions, beside which the proved ones are measured. It is lent no helper words: its maps are its own. It is written from the papers, with the open points read as
//! docs/DECISIONS.md reads them, and shares no code with the proved loader or with the comparison's reader.

#![warn(missing_docs)]

mod bits;
mod board;
mod calendar;
mod connection;
mod fields;
mod lines;
mod names;
mod period;
mod plan;
mod refusal;
mod route;
mod sections;
mod service;
mod table;
mod timetable;
mod writer;

pub use board::Departure;
pub use connection::{Bad, Part};
pub use refusal::Refusal;
pub use timetable::{Day, Number, Row, Timetable};

use plan::Known;
use refusal::{number, Offence};
use sections::{BitFields, Categories, Stops};
use table::Table;

/// "file over 16,777,216 bytes"
const LONGEST_FILE: usize = 16_777_216;

/// The files of a delivery, each as its bytes.
#[derive(Clone, Copy, Debug)]
pub struct Files<'a> {
    /// ECKDATEN: the period.
    pub eckdaten: &'a [u8],
    /// BITFELD: the bit fields.
    pub bitfeld: &'a [u8],
    /// BAHNHOF: the stops.
    pub bahnhof: &'a [u8],
    /// UMSTEIGB: the interchange times.
    pub umsteigb: &'a [u8],
    /// FPLAN: the services.
    pub fplan: &'a [u8],
    /// ZUGART: the categories.
    pub zugart: &'a [u8],
}

impl<'a> Files<'a> {
    /// Each file with its number, in the order in which they are checked: "ZUGART is file 6, its lengths and lines checked after UMSTEIGB's" (document 02,
    /// No. 1).
    fn numbered(&self) -> [(u32, &'a [u8]); 6] {
        let [eckdaten, bitfeld, bahnhof, umsteigb] = [self.eckdaten, self.bitfeld, self.bahnhof, self.umsteigb];
        [(1, eckdaten), (2, bitfeld), (3, bahnhof), (4, umsteigb), (6, self.zugart), (5, self.fplan)]
    }
}

/// Loads a delivery into the words lent, and says how many are used; later words stay. A refusal is the first offence in
/// document 01's order, and leaves all words as lent.
pub fn load(files: &Files<'_>, lent: &mut [u32]) -> Result<u32, Refusal> {
    let words = words_of(files)?;
    let needed = words.len() as u32;
    match lent.get_mut(..words.len()) {
        Some(table) => table.copy_from_slice(&words),
        None => return Err(Refusal { number: number::TABLE_SHORT, file: 0, line: 0, column: 0, needed }),
    }
    Ok(needed)
}

/// The words of a delivery's table, or the first offence (1 to 19, or 37 to 39).
pub fn words_of(files: &Files<'_>) -> Result<Vec<u32>, Refusal> {
    check_lengths(files)?;
    let [eckdaten, bitfeld, bahnhof, umsteigb, zugart, fplan] = files.numbered();
    let period = of(eckdaten, period::read)?;
    let mut table = Table::new(&period);
    let fields: BitFields = of(bitfeld, |file| sections::read_bit_fields(file, &period, &mut table))?;
    let stops: Stops = of(bahnhof, |file| sections::read_stops(file, &mut table))?;
    of(umsteigb, |file| sections::read_interchanges(file, &stops, &mut table))?;
    let categories: Categories = of(zugart, |file| sections::read_categories(file, &mut table))?;
    of(fplan, |file| plan::read(file, &Known { stops, fields, categories }, &mut table))?;
    Ok(table.finish())
}

/// "First, lengths in file order."
fn check_lengths(files: &Files<'_>) -> Result<(), Refusal> {
    match files.numbered().iter().find(|(_, bytes)| bytes.len() > LONGEST_FILE) {
        Some((file, _)) => Err(Offence { number: number::FILE_LONG, line: 0, column: 0 }.in_file(*file)),
        None => Ok(()),
    }
}

/// What is read from a numbered file; an offence gets the number.
fn of<'a, T>((file, bytes): (u32, &'a [u8]), read: impl FnOnce(&'a [u8]) -> Result<T, Offence>) -> Result<T, Refusal> {
    read(bytes).map_err(|offence| offence.in_file(file))
}
