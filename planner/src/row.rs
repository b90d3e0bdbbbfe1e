//! The rows of a walk.

use std::iter::FusedIterator;
use std::slice::ChunksExact;

use crate::layout::{
    ARRIVAL, DEPARTURE, NO_ALIGHTING, NO_BOARDING, ROW_ADMINISTRATION_AT, ROW_ARRIVAL_AT, ROW_CATEGORY_AT,
    ROW_DEPARTURE_AT, ROW_FIRST_TIME_AT, ROW_FLAGS_AT, ROW_NUMBER_AT, ROW_SECOND_TIME_AT, ROW_STOP_AT, ROW_WORDS,
};

/// One call of a walk. Times are minutes from the start of the date that was asked; they may pass 1,440.
#[derive(Clone, Copy, Debug, PartialEq, Eq)]
pub struct Row<'r> {
    words: &'r [u32],
}

impl<'r> Row<'r> {
    /// A row of these words, of which there are [`ROW_WORDS`].
    pub(crate) fn new(words: &'r [u32]) -> Row<'r> {
        Row { words }
    }

    /// The row's words: stop, arrival, departure, flags, number, administration in two, category, the stop's two interchange
    /// times.
    pub fn words(self) -> &'r [u32] {
        self.words
    }

    /// The number of the stop that is called at.
    pub fn stop(self) -> u32 {
        self.words[ROW_STOP_AT]
    }

    /// The arrival; `None` at the first row.
    pub fn arrival(self) -> Option<u32> {
        self.stated(ARRIVAL, self.words[ROW_ARRIVAL_AT])
    }

    /// The departure; `None` at the last row.
    pub fn departure(self) -> Option<u32> {
        self.stated(DEPARTURE, self.words[ROW_DEPARTURE_AT])
    }

    /// Whether there is an arrival at which alighting is not forbidden.
    pub fn may_alight(self) -> bool {
        self.words[ROW_FLAGS_AT] & (ARRIVAL | NO_ALIGHTING) == ARRIVAL
    }

    /// Whether there is a departure at which boarding is not forbidden.
    pub fn may_board(self) -> bool {
        self.words[ROW_FLAGS_AT] & (DEPARTURE | NO_BOARDING) == DEPARTURE
    }

    /// The service's number that holds from this call on, as a conductor announces it: columns 44-48 of the last schedule line up
    /// to this call that states one, else columns 4-8 of the *Z or *T line. Every row has one.
    pub fn number(self) -> u32 {
        self.words[ROW_NUMBER_AT]
    }

    /// The administration that holds from this call on: columns 50-55 of the last schedule line up to this call that states one,
    /// else columns 10-15 of the *Z or *T line. Number and administration change each by itself.
    pub fn administration(self) -> [u8; 6] {
        six_bytes(&self.words[ROW_ADMINISTRATION_AT..])
    }

    /// The category of the leaving leg, columns 4-6 of its *G line; `None` at the last row.
    pub fn category(self) -> Option<[u8; 3]> {
        self.stated(DEPARTURE, three_bytes(self.words[ROW_CATEGORY_AT]))
    }

    /// The stop's first interchange time, for two classes of which both are 0, 1 or 2, and its second, for all others.
    pub fn interchange_times(self) -> [u32; 2] {
        [self.words[ROW_FIRST_TIME_AT], self.words[ROW_SECOND_TIME_AT]]
    }

    fn stated<T>(self, flag: u32, value: T) -> Option<T> {
        if self.words[ROW_FLAGS_AT] & flag == flag {
            Some(value)
        } else {
            None
        }
    }
}

/// The six bytes of two words.
pub(crate) fn six_bytes(words: &[u32]) -> [u8; 6] {
    let [a, b, c] = three_bytes(words[0]);
    let [d, e, f] = three_bytes(words[1]);
    [a, b, c, d, e, f]
}

/// The word of a category's three bytes, the first highest: as a table and a row have it, and as a question takes it.
pub fn category_word([first, second, third]: [u8; 3]) -> u32 {
    u32::from_be_bytes([0, first, second, third])
}

/// The three bytes that share a word, the first highest.
pub(crate) fn three_bytes(word: u32) -> [u8; 3] {
    let [_, first, second, third] = word.to_be_bytes();
    [first, second, third]
}

/// The rows of a walk, one for each call of that day's stretch: two or more.
#[derive(Clone, Copy, Debug, PartialEq, Eq)]
pub struct Rows<'r> {
    words: &'r [u32],
}

impl<'r> Rows<'r> {
    /// The rows that the front of these words holds.
    pub(crate) fn new(lent: &'r [u32], rows: u32) -> Rows<'r> {
        Rows { words: &lent[..ROW_WORDS * rows as usize] }
    }

    /// All words of the rows, [`ROW_WORDS`] a row.
    pub fn words(self) -> &'r [u32] {
        self.words
    }

    /// The rows, in the order of the calls.
    pub fn iter(self) -> RowIter<'r> {
        RowIter { rows: self.words.chunks_exact(ROW_WORDS) }
    }

    /// How many rows there are.
    #[must_use]
    pub fn len(self) -> usize {
        self.words.len() / ROW_WORDS
    }

    /// Never: a stretch has two calls or more.
    #[must_use]
    pub fn is_empty(self) -> bool {
        self.words.is_empty()
    }
}

impl<'r> IntoIterator for Rows<'r> {
    type Item = Row<'r>;
    type IntoIter = RowIter<'r>;

    fn into_iter(self) -> RowIter<'r> {
        self.iter()
    }
}

/// The rows of a walk one by one, from either end.
#[derive(Clone, Debug)]
#[must_use]
pub struct RowIter<'r> {
    rows: ChunksExact<'r, u32>,
}

impl<'r> Iterator for RowIter<'r> {
    type Item = Row<'r>;

    fn next(&mut self) -> Option<Row<'r>> {
        self.rows.next().map(Row::new)
    }

    fn size_hint(&self) -> (usize, Option<usize>) {
        self.rows.size_hint()
    }
}

impl<'r> DoubleEndedIterator for RowIter<'r> {
    fn next_back(&mut self) -> Option<Row<'r>> {
        self.rows.next_back().map(Row::new)
    }
}

impl ExactSizeIterator for RowIter<'_> {}

impl FusedIterator for RowIter<'_> {}
