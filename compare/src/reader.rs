//! An independent reader of HAFAS 5.20 deliveries, by the rules of documents 01 and 02.
//! Each rule cites the sentence that it follows; an "open point" is a reading that docs/DECISIONS.md gives.

pub mod ask;
pub mod bits;
pub mod board;
pub mod calendar;
pub mod connection;
pub mod day_sets;
pub mod fields;
pub mod forms;
pub mod index;
pub mod lines;
pub mod load;
pub mod names;
pub mod quick_board;
pub mod runs;
pub mod service;
pub mod table;
pub mod write;

pub use ask::{day, interchange, interchange_between, is_table, stop_name, walk, Changed, DayAnswer, Named, Walked};
pub use board::{board, BoardQuestion, Boarded};
pub use connection::{connection, Connected};
pub use day_sets::{combine, complement, day_count, Combination, Refused};
pub use index::{check_index, index, index_words, Indexed};
pub use load::{helper_needed, load, Loaded};
pub use write::{write, Written};
