//! The planner's side of Estelunya: safe functions over the proved archive `libestelunya.a`.
//!
//! A delivery is loaded once, into a [`Timetable`], which is then asked all day. Nothing is asked of the caller: whatever the files and
//! numbers say, the answer is document 01's. Services, stops, bit fields, categories and runs are handles of their timetable: one that is asked of another
//! timetable, or kept past its own, [does not compile](Timetable::scope). What a host keeps of them are [keys](Key), which another timetable does not know.
//!
//! The sample delivery, read from this crate's directory, loaded and walked:
//!
//! ```
//! use estelunya_planner::{Date, Language, Minutes, Month, NameType, Timetable};
//!
//! # fn main() -> Result<(), Box<dyn std::error::Error>> {
//! let timetable = Timetable::read("../crates/ferry/data")?;
//! let friday = Date::new(5, Month::December, 2025).expect("a date");
//! let saturday = friday.day_after().expect("a date");
//!
//! timetable.scope(|timetable| {
//!     let ferry = timetable.services().next().expect("a service");
//!     assert_eq!((ferry.number(), ferry.administration()), (42, *b"FERRY_"));
//!     // a day of the period: what is asked of it is never refused
//!     let [friday, saturday] = [friday, saturday].map(|date| timetable.day(date).expect("in the period"));
//!     for run in ferry.runs(friday) {
//!         let quays: Vec<u32> = run.calls().map(|call| call.stop().number()).collect();
//!         assert_eq!(quays, [1_000_011, 1_000_022, 1_000_033, 1_000_022]);
//!         let first = run.calls().next().expect("two calls or more");
//!         assert_eq!(first.stop().name(Language::German, NameType::ANY), b"Quay A");
//!         assert_eq!(first.departure(), Some(Minutes::new(8, 0)));
//!         // from this boat to itself, where it calls a second time: boats are of class 4
//!         let [_, second, _, last] = [0, 1, 2, 3].map(|at| run.calls().nth(at).expect("four calls"));
//!         assert_eq!((second.departing_category().map(|boat| boat.class().number()), last.interchange_to(&second)), (Some(4), Some(3)));
//!     }
//!     assert_eq!(ferry.runs(saturday).len(), 0);
//!
//!     // operating days as sets
//!     let weekdays = ferry.operating_days().next().expect("a range").field;
//!     assert_eq!((weekdays.has(friday), weekdays.has(saturday)), (true, false));
//!     assert_eq!((weekdays.day_count(), (timetable.each_day() - weekdays).day_count()), (5, 2));
//!     assert_eq!((!weekdays).days().next(), Some(saturday));
//! });
//! # Ok(())
//! # }
//! ```
//!
//! What is wrong is refused, with its number, place and text, and yields no timetable:
//!
//! ```
//! use estelunya_planner::{Files, LoadError, Offence, Timetable};
//!
//! let files = Files { eckdaten: b"01.12.2025\n", bitfeld: b"", bahnhof: b"", umsteigb: b"", fplan: b"", zugart: b"" };
//! match Timetable::load(&files) {
//!     Err(LoadError::Refused(refusal)) => {
//!         assert_eq!((refusal.offence, refusal.line), (Offence::LineMissing, 2));
//!         assert!(refusal.to_string().starts_with("refused 2 file 1 line 2 column 0: ECKDATEN: "));
//!     }
//!     other => panic!("{:?}", other),
//! }
//! ```
//!
//! How a host lives with it from night to night says [a day in the host](a_day_in_the_host); `examples/trial_week.rs` is a whole program. Who lends the words
//! himself, or keeps numbers, asks [by bare number](by_number).
//!
//! Crate and archive have to be of one version of the boundary between them ([`raw::VERSION`], not the version in `Cargo.toml`). They are compared once, before the first call of the archive; if they differ, that call and every later one panics, and says so.
//! The crate [`estelunya_sys`] links the archive, and says from where; this documentation, and `cargo check`, need none.

#![warn(missing_docs)]

pub mod a_day_in_the_host;
pub mod by_number;
mod connection;
mod date;
mod handles;
mod keys;
mod kind;
mod memory;
mod minutes;
mod names;
mod read;
mod refusal;
mod row;
mod timetable;
mod version;

pub use estelunya_sys::{layout, raw};

pub use by_number::load::Files;
pub use connection::{BadConnection, BadPart, Connection, Part};
pub use date::{Date, Month, NoSuchDate};
pub use handles::{
    Attribute, BitField, Call, Category, CategoryRange, Class, Day, Departure, Departures, Interchange, Listed,
    OperatingDays, RouteCall, Run, Scope, Service, Stop,
};
pub use keys::{BitFieldKey, CategoryKey, Key, RunKey, ServiceKey, StopKey};
pub use kind::Kind;
pub use layout::{MOST_ROW_WORDS, ROW_WORDS};
pub use memory::NoMemory;
pub use minutes::{Minutes, Moment, NoSuchMoment, NoSuchTime};
pub use names::{Coding, Language, NameType};
pub use read::ReadError;
pub use refusal::{File, LoadRefusal, Offence, Refusal};
pub use row::{Row, RowIter, Rows};
pub use timetable::{LoadError, Period, Timetable};
