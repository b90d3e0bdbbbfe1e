//! Calls by bare number: words lent by the caller, and services, stops, bit fields, runs and dates as the numbers that the archive takes.
//!
//! Any words and any numbers may be asked, and each has its answer. But nothing here sees whether a number was read in the
//! table that it is asked of, whether BAHNHOF's bytes are those that were loaded, or whether words are last night's: that is for the caller to
//! keep apart. A [`Timetable`](crate::Timetable) keeps it apart by itself.
//!
//! ```
//! use estelunya_planner::by_number::{category_word, load, room, Date, Table, Walk};
//! use estelunya_planner::{Files, MOST_ROW_WORDS};
//! use std::fs::read;
//!
//! # fn main() -> Result<(), Box<dyn std::error::Error>> {
//! let bahnhof = read("../crates/ferry/data/BAHNHOF")?;
//! let files = Files {
//!     eckdaten: &read("../crates/ferry/data/ECKDATEN")?,
//!     bitfeld: &read("../crates/ferry/data/BITFELD")?,
//!     bahnhof: &bahnhof,
//!     umsteigb: &read("../crates/ferry/data/UMSTEIGB")?,
//!     fplan: &read("../crates/ferry/data/FPLAN")?,
//!     zugart: &read("../crates/ferry/data/ZUGART")?,
//! };
//! let mut words = vec![0; room(&files)];
//! let loaded = load(&files, &mut words)?;
//! words.truncate(loaded.words as usize);
//!
//! let table = Table::new(&words);
//! assert_eq!((table.services(), table.service_number(0)), (1, Some(42)));
//! assert_eq!(table.kind(0).map(|kind| kind.last_repeat()), Some(0));
//! let mut lent = vec![0; MOST_ROW_WORDS];
//! match table.walk(0, 0, Date { day: 5, month: 12, year: 2025 }, &mut lent)? {
//!     Walk::Rows(rows) => {
//!         let stops: Vec<u32> = rows.iter().map(|row| row.stop()).collect();
//!         assert_eq!(stops, [1_000_011, 1_000_022, 1_000_033, 1_000_022]);
//!         let name = table.stop(stops[0], &bahnhof).name(b'd'.into(), 0)?;
//!         assert_eq!(name, b"Quay A");
//!     }
//!     Walk::NotRunning => panic!("it runs on Fridays"),
//! }
//! // the boat is of class 4, so that it takes the stop's second time
//! let boat = category_word(*b"BAT");
//! assert_eq!((table.class_of(boat), table.interchange_between(1_000_022, boat, boat)?), (Some(4), 3));
//! let saturday = Date { day: 6, month: 12, year: 2025 };
//! assert_eq!(table.walk(0, 0, saturday, &mut lent)?, Walk::NotRunning);
//!
//! // the same by an index, made once: what a question costs does not grow with the table then
//! let mut index = vec![0; table.index_words()?];
//! table.make_index(&mut index)?;
//! assert_eq!(table.check_index(&index), Ok(()));
//! let indexed = table.with_index(&index);
//! assert_eq!(indexed.walk(0, 0, saturday, &mut lent)?, Walk::NotRunning);
//! assert_eq!(indexed.interchange_between(1_000_022, boat, boat)?, 3);
//!
//! // what leaves the first quay from 08:00 to 09:00: service 0, its run 0, at call 0
//! let friday = Date { day: 5, month: 12, year: 2025 };
//! let board = indexed.board(1_000_011, friday, 480..=540)?;
//! assert_eq!(board.iter().next().map(|leaves| (leaves.time, leaves.service, leaves.repeat, leaves.place)), Some((480, 0, 0, 0)));
//!
//! // FPLAN in one clean form, lines of 60 bytes
//! assert_eq!(table.fplan()?.len(), 7 * 60);
//!
//! // operating days as sets: bit field 000001 is Monday to Friday, 000000 each day of the period
//! let (weekdays, daily) = (table.bit_field(1)?, table.bit_field(0)?);
//! assert_eq!((weekdays.day_count(), (daily - weekdays).day_count()), (5, 2));
//! assert_eq!(weekdays | !weekdays, daily);
//! # Ok(())
//! # }
//! ```
//!
//! What is wrong is refused, and leaves the lent words as they were:
//!
//! ```
//! use estelunya_planner::by_number::{load, Date, Table};
//! use estelunya_planner::{Files, Offence, Refusal};
//!
//! let mut words = [0; 4096];
//! let files = Files { eckdaten: b"01.12.2025\n", bitfeld: b"", bahnhof: b"", umsteigb: b"", fplan: b"", zugart: b"" };
//! let refusal = load(&files, &mut words).unwrap_err();
//! assert_eq!((refusal.offence, refusal.line), (Offence::LineMissing, 2));
//!
//! let date = Date { day: 5, month: 12, year: 2025 };
//! assert_eq!(Table::new(&words).day(1, date), Err(Refusal::NotATable));
//! ```

mod ask;
mod board;
mod connection;
mod contents;
mod days;
pub(crate) mod index;
pub(crate) mod load;
mod names;
mod write;

pub use crate::row::category_word;
pub use ask::{Date, Table, Walk};
pub use board::{Board, Departure};
pub use connection::{BadPart, Part};
pub use days::BitField;
pub use index::Indexed;
pub use load::{helper_words, load, load_with, room, room_for, Lengths, Loaded};
pub use names::Stop;
