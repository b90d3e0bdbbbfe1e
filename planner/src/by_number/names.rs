//! The names of stops.

use std::fmt;

use super::ask::{answered, Table};
use crate::raw;
use crate::refusal::Refusal;
use crate::version::compared;

/// A stop by its number, with the table that lists it and the bytes of BAHNHOF that hold its names.
#[derive(Clone, Copy)]
pub struct Stop<'a> {
    table: Table<'a>,
    bahnhof: &'a [u8],
    number: u32,
}

impl fmt::Debug for Stop<'_> {
    fn fmt(&self, f: &mut fmt::Formatter<'_>) -> fmt::Result {
        write!(f, "Stop({})", self.number)
    }
}

impl<'a> Table<'a> {
    /// The stop of this number, as a [`Row`](crate::Row) says it. The bytes of BAHNHOF must be those that were loaded; whether the
    /// stop is known, and its names are in these bytes, its questions say.
    pub fn stop(self, number: u32, bahnhof: &'a [u8]) -> Stop<'a> {
        Stop { table: self, bahnhof, number }
    }
}

impl<'a> Stop<'a> {
    /// The number, as it was given.
    pub fn number(self) -> u32 {
        self.number
    }

    /// The name in a language (the byte of its letter in the standard's list, 5.1) and of a type (1 to 9), each 0 for any, as a part of BAHNHOF: the first name with a pattern that fits both, else the first name.
    /// A pattern without letters fits every language, one without digits every type. A name without patterns fits nothing: it
    /// is given only as the first name.
    ///
    /// # Errors
    ///
    /// 21, 27, 39, 40 or 41.
    pub fn name(self, language: u32, kind: u32) -> Result<&'a [u8], Refusal> {
        compared();
        let (words, bahnhof) = (self.table.words(), self.bahnhof);
        // SAFETY: each pointer and length is that of a slice.
        let answer = unsafe {
            raw::estelunya_stop_name(
                words.as_ptr(),
                words.len(),
                bahnhof.as_ptr(),
                bahnhof.len(),
                self.number,
                language,
                kind,
            )
        };
        answered(answer.number, 0, ())?;
        Ok(&bahnhof[answer.start..][..answer.length])
    }
}
