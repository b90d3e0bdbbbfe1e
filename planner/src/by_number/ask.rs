//! Questions on a table.

use std::fmt;

use crate::raw;
use crate::refusal::Refusal;
use crate::row::Rows;
use crate::version::compared;

/// A date as three numbers; whether it exists is for the answer to say. One that exists is a [`Date`](crate::Date).
#[derive(Clone, Copy, Debug, PartialEq, Eq)]
pub struct Date {
    /// The day of the month, from 1.
    pub day: u32,
    /// The month, 1 to 12.
    pub month: u32,
    /// The year in full, such as 2025.
    pub year: u32,
}

impl From<crate::Date> for Date {
    fn from(date: crate::Date) -> Date {
        Date { day: date.day(), month: date.month().number(), year: date.year() }
    }
}

/// Words to ask. Any words may be asked; each question first looks whether they are a table, and answers
/// [`Refusal::NotATable`] if not. Words after the table's own are not looked at.
///
/// Their layout: [`layout`](crate::layout), and `include/estelunya.h`.
#[derive(Clone, Copy)]
pub struct Table<'a> {
    words: &'a [u32],
}

/// How many words there are, not which.
impl fmt::Debug for Table<'_> {
    fn fmt(&self, f: &mut fmt::Formatter<'_>) -> fmt::Result {
        f.debug_struct("Table").field("words", &self.words.len()).finish_non_exhaustive()
    }
}

/// The answer of a walk.
#[derive(Clone, Copy, Debug, PartialEq, Eq)]
pub enum Walk<'r> {
    /// The service operates no leg on that day. The rows stay as lent.
    NotRunning,
    /// The calls of that day's stretch. Words after the rows stay as lent.
    Rows(Rows<'r>),
}

impl<'a> Table<'a> {
    /// The words to ask, for as long as they are borrowed.
    pub fn new(words: &'a [u32]) -> Table<'a> {
        Table { words }
    }

    /// The words as they were given.
    pub fn words(self) -> &'a [u32] {
        self.words
    }

    /// Whether a bit field runs on a date; 0 always runs.
    ///
    /// # Errors
    ///
    /// 21, 22, 23 or 28.
    ///
    /// # Panics
    ///
    /// As [`load`](crate::by_number::load) does, here and in the other questions.
    pub fn day(self, field: u32, date: Date) -> Result<bool, Refusal> {
        compared();
        let Date { day, month, year } = date;
        // SAFETY: pointer and length are those of a slice.
        let answer = unsafe { raw::estelunya_day(self.words.as_ptr(), self.words.len(), day, month, year, field) };
        answered(answer.number, 0, answer.runs != 0)
    }

    /// The minutes to change at a stop from a class to a class.
    ///
    /// # Errors
    ///
    /// 21, 26 or 27.
    pub fn interchange(self, stop: u32, arriving: u32, departing: u32) -> Result<u32, Refusal> {
        compared();
        // SAFETY: pointer and length are those of a slice.
        let answer =
            unsafe { raw::estelunya_interchange(self.words.as_ptr(), self.words.len(), stop, arriving, departing) };
        answered(answer.number, 0, answer.minutes)
    }

    /// The minutes to change at a stop from a category to a category, each as a word ([`category_word`](crate::by_number::category_word)).
    ///
    /// # Errors
    ///
    /// 21, 27 or 38.
    pub fn interchange_between(self, stop: u32, arriving: u32, departing: u32) -> Result<u32, Refusal> {
        compared();
        let (words, used) = (self.words.as_ptr(), self.words.len());
        // SAFETY: pointer and length are those of a slice.
        let answer = unsafe { raw::estelunya_interchange_between(words, used, stop, arriving, departing) };
        answered(answer.number, 0, answer.minutes)
    }

    /// Walks a run that starts on a date: service by its index from 0 in FPLAN's order, repeat 0 for the run itself, else up to
    /// the last that its [`kind`](Table::kind) has.
    ///
    /// # Errors
    ///
    /// 21 to 25, 29, 31, or 33 to 36; the rows stay as lent.
    pub fn walk(self, service: u32, repeat: u32, date: Date, rows: &mut [u32]) -> Result<Walk<'_>, Refusal> {
        compared();
        let Date { day, month, year } = date;
        // SAFETY: each pointer and length is that of a slice, and the mutable slice does not overlap the other.
        let answer = unsafe {
            raw::estelunya_walk(
                self.words.as_ptr(),
                self.words.len(),
                service,
                repeat,
                day,
                month,
                year,
                rows.as_mut_ptr(),
                rows.len(),
            )
        };
        let walk = match answer.rows {
            0 => Walk::NotRunning,
            listed => Walk::Rows(Rows::new(rows, listed)),
        };
        answered(answer.number, answer.needed as usize, walk)
    }
}

pub(crate) fn answered<T>(number: u32, needed: usize, answer: T) -> Result<T, Refusal> {
    match (number, Refusal::from_number(number, needed)) {
        (0, _) => Ok(answer),
        (_, Some(refusal)) => Err(refusal),
        (_, None) => panic!("the archive answered {}", number),
    }
}
