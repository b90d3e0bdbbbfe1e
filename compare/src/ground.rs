//! The comparison of the library's ground (lines, columns, fields, forms, calendar, bit fields) with the reader.
//!
//! A `Question` is one call of the library and `expected` the reader's answer to it. Each part asks its questions of
//! a `Tally`, which compares the two answers, and notes what was met.

pub mod bits;
pub mod dates;
pub mod expected;
pub mod fields;
pub mod files;
pub mod lines;
pub mod question;
pub mod tally;

pub use question::{Answer, Question, What};
pub use tally::{Draw, Library, Tally};

use crate::generate::Rng;

/// A part by its name, and what asks its questions.
type Part = (&'static str, fn(&mut Tally, &mut Rng, u32));

/// Asks every part's questions.
pub fn compare(tally: &mut Tally) {
    let parts: [Part; 5] = [
        ("dates", dates::ask),
        ("fields", fields::ask),
        ("lines", lines::ask),
        ("files", files::ask),
        ("bits", bits::ask),
    ];
    for (name, ask) in parts {
        let Draw { seed, rounds } = tally.begin(name);
        ask(tally, &mut Rng::new(seed), rounds);
    }
}
