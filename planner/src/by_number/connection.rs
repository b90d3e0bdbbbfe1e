//! Proposed connections by bare number (document 02, No. 12).

use std::error::Error;
use std::fmt;

use super::ask::{Date, Table};
use super::index::Indexed;
use crate::layout::PART_WORDS;
use crate::raw;
use crate::refusal::Refusal;
use crate::version::compared;

/// A part of a proposed connection: a run of a service, from one of its calls to a later one.
#[derive(Clone, Copy, Debug, PartialEq, Eq)]
pub struct Part {
    /// The index of the service, as a walk takes it.
    pub service: u32,
    /// The number of its run, as a walk takes it.
    pub repeat: u32,
    /// The date on which the run starts.
    pub date: Date,
    /// The call where one boards, counted from 0 along the route.
    pub boarding: u32,
    /// The call where one alights, in the same way.
    pub alighting: u32,
}

impl Part {
    fn words(self) -> [u32; PART_WORDS] {
        let Date { day, month, year } = self.date;
        [self.service, self.repeat, day, month, year, self.boarding, self.alighting]
    }
}

/// Why a connection does not hold, and by which part.
#[derive(Clone, Copy, Debug, PartialEq, Eq)]
#[non_exhaustive]
pub struct BadPart {
    /// The first bad part, counted from 1; 0 for 21, 46, and 43 by the index's length, which no part is to blame for.
    pub part: usize,
    /// Why. 49, 38 and 50 are of this part and the one before.
    pub refusal: Refusal,
}

impl fmt::Display for BadPart {
    fn fmt(&self, f: &mut fmt::Formatter<'_>) -> fmt::Result {
        match self.part {
            0 => self.refusal.fmt(f),
            part => write!(f, "part {}: {}", part, self.refusal),
        }
    }
}

impl Error for BadPart {
    fn source(&self) -> Option<&(dyn Error + 'static)> {
        Some(&self.refusal)
    }
}

impl Table<'_> {
    /// Whether a connection of these parts holds.
    ///
    /// # Errors
    ///
    /// The first bad part, and why: 21, 46; then part by part 22 to 25, 31, 33 to 36, 47, 48, 49, 38 or 50.
    ///
    /// # Panics
    ///
    /// As [`load`](crate::by_number::load) does.
    pub fn connection(self, parts: &[Part]) -> Result<(), BadPart> {
        compared();
        let (words, proposed) = (self.words(), words_of(parts));
        // SAFETY: each pointer and length is that of a slice.
        told(unsafe { raw::estelunya_connection(words.as_ptr(), words.len(), proposed.as_ptr(), proposed.len()) })
    }
}

impl Indexed<'_> {
    /// As [`Table::connection`], at the cost of its parts.
    ///
    /// # Errors
    ///
    /// As there, and 43 after 21.
    pub fn connection(self, parts: &[Part]) -> Result<(), BadPart> {
        compared();
        let (((words, used), (index, size)), proposed) = (self.parts(), words_of(parts));
        // SAFETY: each pointer and length is that of a slice.
        told(unsafe { raw::estelunya_quick_connection(words, used, index, size, proposed.as_ptr(), proposed.len()) })
    }
}

fn words_of(parts: &[Part]) -> Vec<u32> {
    parts.iter().flat_map(|part| part.words()).collect()
}

fn told(answer: raw::ConnectionResult) -> Result<(), BadPart> {
    match (answer.number, Refusal::from_number(answer.number, 0)) {
        (0, _) => Ok(()),
        (_, Some(refusal)) => Err(BadPart { part: answer.part as usize, refusal }),
        (_, None) => panic!("the archive answered {:?}", answer),
    }
}
