//! Departure boards by bare number (document 02, No. 9).

use std::ops::RangeInclusive;

use super::ask::{answered, Date};
use super::index::Indexed;
use crate::handles::Listed;
use crate::layout::{BOARD_PLACE_AT, BOARD_REPEAT_AT, BOARD_ROW_WORDS, BOARD_SERVICE_AT, BOARD_TIME_AT};
use crate::memory::zeroed;
use crate::raw;
use crate::refusal::Refusal;
use crate::version::compared;

/// Departures for which a board has room at first; a longer one is asked for twice.
const USUAL_ROWS: usize = 128;

/// A departure of a board.
#[derive(Clone, Copy, Debug, PartialEq, Eq, PartialOrd, Ord, Hash)]
pub struct Departure {
    /// Minutes from the start of the date that was asked; they may pass 1,440.
    pub time: u32,
    /// The index of the service, as a walk takes it.
    pub service: u32,
    /// The number of its run, as a walk takes it.
    pub repeat: u32,
    /// The place of the call in the service's route, from 0.
    pub place: u32,
}

/// The departures of a board: by time, then service, repeat and place, each once.
#[derive(Clone, Debug, PartialEq, Eq)]
pub struct Board {
    words: Vec<u32>,
}

impl Board {
    /// The departures, the first first.
    pub fn iter(&self) -> impl Listed<Departure> + '_ {
        self.words.chunks_exact(BOARD_ROW_WORDS).map(departure)
    }

    /// The departure of this place of the list.
    pub(crate) fn at(&self, at: usize) -> Departure {
        departure(&self.words[at * BOARD_ROW_WORDS..][..BOARD_ROW_WORDS])
    }

    /// How many there are.
    #[must_use]
    pub fn len(&self) -> usize {
        self.words.len() / BOARD_ROW_WORDS
    }

    /// Whether there are none.
    #[must_use]
    pub fn is_empty(&self) -> bool {
        self.words.is_empty()
    }
}

fn departure(row: &[u32]) -> Departure {
    Departure {
        time: row[BOARD_TIME_AT],
        service: row[BOARD_SERVICE_AT],
        repeat: row[BOARD_REPEAT_AT],
        place: row[BOARD_PLACE_AT],
    }
}

impl Indexed<'_> {
    /// Every departure from a stop of runs that start on a date, where boarding is allowed and the time is one of those given, in minutes of that
    /// date. It costs as much as the calls at the stop and what it lists. A first time after the last is an empty board.
    ///
    /// # Errors
    ///
    /// 21, 43, 22, 23 or 27; 29 with the words needed, if there is no memory for them.
    ///
    /// # Panics
    ///
    /// As [`load`](crate::by_number::load) does, here and below.
    pub fn board(self, stop: u32, date: Date, times: RangeInclusive<u32>) -> Result<Board, Refusal> {
        let mut words = vec![0; USUAL_ROWS * BOARD_ROW_WORDS];
        let rows = match self.board_into(stop, date, times.clone(), &mut words) {
            Err(Refusal::RowsTooShort { needed }) => {
                words = zeroed(needed).map_err(|_| Refusal::RowsTooShort { needed })?;
                self.board_into(stop, date, times, &mut words)?
            }
            answer => answer?,
        };
        words.truncate(rows * BOARD_ROW_WORDS);
        Ok(Board { words })
    }

    /// The same into words lent, [`BOARD_ROW_WORDS`] a departure, and says how many departures there are; later words stay.
    ///
    /// # Errors
    ///
    /// As of [`Indexed::board`], and 29 with the words needed, which may pass 2^32; the words stay as lent.
    pub fn board_into(
        self,
        stop: u32,
        date: Date,
        times: RangeInclusive<u32>,
        list: &mut [u32],
    ) -> Result<usize, Refusal> {
        self.listed(raw::estelunya_quick_board, stop, date, times, list)
    }

    /// The same for words of which nothing is known: table and index are looked through each time (21, and 43 exactly if the index is not this
    /// table's), which grows with the table.
    ///
    /// # Errors
    ///
    /// 21, 22, 23, 27, 43, or 29 with the words needed.
    pub fn checked_board_into(
        self,
        stop: u32,
        date: Date,
        times: RangeInclusive<u32>,
        list: &mut [u32],
    ) -> Result<usize, Refusal> {
        self.listed(raw::estelunya_board, stop, date, times, list)
    }

    fn listed(
        self,
        function: List,
        stop: u32,
        date: Date,
        times: RangeInclusive<u32>,
        list: &mut [u32],
    ) -> Result<usize, Refusal> {
        compared();
        let ((words, used), (index, size)) = self.parts();
        let (Date { day, month, year }, (first, last)) = (date, times.into_inner());
        let (lent, room) = (list.as_mut_ptr(), list.len());
        // SAFETY: each pointer and length is that of a slice, and the mutable slice does not overlap the others.
        let answer = unsafe { function(words, used, index, size, stop, day, month, year, first, last, lent, room) };
        answered(answer.number, answer.needed, answer.rows)
    }
}

/// Table and index; stop, date and both times; the list.
type List = unsafe extern "C" fn(
    *const u32,
    usize,
    *const u32,
    usize,
    u32,
    u32,
    u32,
    u32,
    u32,
    u32,
    *mut u32,
    usize,
) -> raw::BoardResult;
