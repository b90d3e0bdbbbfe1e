//! A table's index, and the questions by it: what one costs does not grow with the table.

use std::fmt;

use super::ask::{answered, Date, Table, Walk};
use crate::layout::{
    BIT_FIELDS_AT, BIT_FIELD_BITS_AT, BIT_FIELD_WORDS, CLASSES_AT, CLASS_AT, CLASS_WORDS, HEADER_WORDS,
    INTERCHANGES_AT, INTERCHANGE_WORDS, SERVICES_AT, SIZE_AT, STOPS_AT, STOP_NAME_AT, STOP_NAME_LENGTH_AT, STOP_WORDS,
};
use crate::raw;
use crate::refusal::Refusal;
use crate::row::Rows;
use crate::version::compared;

/// Words of an index for each record that is found by its first word: the head of a bucket, and the link of a record.
const CHAIN_WORDS: usize = 2;

impl<'a> Table<'a> {
    /// How many words the table's index has: never more than the table.
    ///
    /// # Errors
    ///
    /// 21.
    ///
    /// # Panics
    ///
    /// As [`load`](crate::by_number::load) does, here and below.
    pub fn index_words(self) -> Result<usize, Refusal> {
        // Lent none, the archive says how many it needs.
        match self.make_index(&mut []) {
            Err(Refusal::RowsTooShort { needed }) => Ok(needed),
            answer => answer,
        }
    }

    /// Makes the index of the table in the words lent, and says how many it has: so many from the first, later ones stay. The time grows with the
    /// table, once.
    ///
    /// Its last word is the mark: 1 if all times that a run can need are stated and never fall, as in every table that was loaded, else 0. Under a mark of 1 a
    /// board by the index looks at no other calls than those at its stop.
    ///
    /// # Errors
    ///
    /// 21, or 29 with the words needed; the words stay as lent.
    pub fn make_index(self, index: &mut [u32]) -> Result<usize, Refusal> {
        compared();
        let (words, used) = (self.words().as_ptr(), self.words().len());
        // SAFETY: each pointer and length is that of a slice, and the mutable slice does not overlap the other.
        let answer = unsafe { raw::estelunya_index(words, used, index.as_mut_ptr(), index.len()) };
        answered(answer.number, answer.words, answer.words)
    }

    /// Whether the words, all of them and no more, are the index of this table; the time grows with the table. Ask it once whenever the words or the
    /// index came out of a file.
    ///
    /// # Errors
    ///
    /// 21, or 43 exactly if they are not.
    pub fn check_index(self, index: &[u32]) -> Result<(), Refusal> {
        compared();
        let (words, used) = (self.words().as_ptr(), self.words().len());
        // SAFETY: each pointer and length is that of a slice.
        let number = unsafe { raw::estelunya_check_index(words, used, index.as_ptr(), index.len()) };
        answered(number, 0, ())
    }

    /// The table beside its index, to be asked by it.
    ///
    /// **An index belongs to the words it was made of.** Beside the words of another table, or of last night's, a question may refuse, or walk another service than the one that was
    /// meant, and a board may list a run that a walk refuses. Any words may be given; whether the two belong together [`Table::check_index`] says, and no question here. A
    /// [`Timetable`](crate::Timetable) keeps the two together by itself.
    pub fn with_index(self, index: &'a [u32]) -> Indexed<'a> {
        Indexed { table: self, index }
    }
}

/// A table and an index. Of a table and its own index each question answers exactly as that of [`Table`] does, at the cost of its answer, whatever
/// the table's size: the words are not looked through. [`Refusal::NotATable`] only where there is no header of a table, [`Refusal::NotItsIndex`]
/// where the index has a length that this table's cannot have, or points where no sound record stands.
#[derive(Clone, Copy)]
pub struct Indexed<'a> {
    table: Table<'a>,
    index: &'a [u32],
}

/// How many words there are, not which.
impl fmt::Debug for Indexed<'_> {
    fn fmt(&self, f: &mut fmt::Formatter<'_>) -> fmt::Result {
        f.debug_struct("Indexed")
            .field("words", &self.table.words().len())
            .field("index", &self.index.len())
            .finish_non_exhaustive()
    }
}

impl<'a> Indexed<'a> {
    /// The table alone.
    pub fn table(self) -> Table<'a> {
        self.table
    }

    /// The words of the index, as they were given.
    pub fn index(self) -> &'a [u32] {
        self.index
    }

    /// As [`Table::day`].
    ///
    /// # Errors
    ///
    /// 21, 43, 22, 23 or 28.
    pub fn day(self, field: u32, date: Date) -> Result<bool, Refusal> {
        compared();
        let ((words, used), (index, size)) = self.parts();
        let Date { day, month, year } = date;
        // SAFETY: each pointer and length is that of a slice.
        let answer = unsafe { raw::estelunya_quick_day(words, used, index, size, day, month, year, field) };
        answered(answer.number, 0, answer.runs != 0)
    }

    /// As [`Table::interchange`].
    ///
    /// # Errors
    ///
    /// 21, 43, 26 or 27.
    pub fn interchange(self, stop: u32, arriving: u32, departing: u32) -> Result<u32, Refusal> {
        compared();
        let ((words, used), (index, size)) = self.parts();
        // SAFETY: each pointer and length is that of a slice.
        let answer = unsafe { raw::estelunya_quick_interchange(words, used, index, size, stop, arriving, departing) };
        answered(answer.number, 0, answer.minutes)
    }

    /// As [`Table::interchange_between`].
    ///
    /// # Errors
    ///
    /// 21, 43, 27 or 38.
    pub fn interchange_between(self, stop: u32, arriving: u32, departing: u32) -> Result<u32, Refusal> {
        compared();
        let ((words, used), (index, size)) = self.parts();
        // SAFETY: each pointer and length is that of a slice.
        let answer =
            unsafe { raw::estelunya_quick_interchange_between(words, used, index, size, stop, arriving, departing) };
        answered(answer.number, 0, answer.minutes)
    }

    /// As [`Stop::name`](crate::by_number::Stop::name): the bytes of BAHNHOF must be those that were loaded.
    ///
    /// # Errors
    ///
    /// 21, 43, 27, 39, 40 or 41.
    pub fn stop_name(self, stop: u32, bahnhof: &'a [u8], language: u32, kind: u32) -> Result<&'a [u8], Refusal> {
        compared();
        let ((words, used), (index, size)) = self.parts();
        let (bytes, length) = (bahnhof.as_ptr(), bahnhof.len());
        // SAFETY: each pointer and length is that of a slice.
        let answer =
            unsafe { raw::estelunya_quick_stop_name(words, used, index, size, bytes, length, stop, language, kind) };
        answered(answer.number, 0, ())?;
        Ok(&bahnhof[answer.start..][..answer.length])
    }

    /// As [`Table::walk`].
    ///
    /// # Errors
    ///
    /// 21, 43, 22 to 25, 29, 31, or 33 to 36; the rows stay as lent.
    pub fn walk(self, service: u32, repeat: u32, date: Date, rows: &mut [u32]) -> Result<Walk<'_>, Refusal> {
        compared();
        let ((words, used), (index, size)) = self.parts();
        let Date { day, month, year } = date;
        let (lent, room) = (rows.as_mut_ptr(), rows.len());
        // SAFETY: each pointer and length is that of a slice, and the mutable slice does not overlap the others.
        let answer = unsafe {
            raw::estelunya_quick_walk(words, used, index, size, service, repeat, day, month, year, lent, room)
        };
        let walk = match answer.rows {
            0 => Walk::NotRunning,
            listed => Walk::Rows(Rows::new(rows, listed)),
        };
        answered(answer.number, answer.needed as usize, walk)
    }

    /// Pointer and length of the table, and of the index.
    #[allow(clippy::type_complexity)]
    pub(crate) fn parts(self) -> ((*const u32, usize), (*const u32, usize)) {
        let words = self.table.words();
        ((words.as_ptr(), words.len()), (self.index.as_ptr(), self.index.len()))
    }

    /// The words of the service with this index in FPLAN's order.
    pub(crate) fn service_words(self, service: usize) -> Option<&'a [u32]> {
        if service >= self.table.header(SERVICES_AT) as usize {
            return None;
        }
        let place = *self.index.get(self.chains(4) + service)? as usize;
        let from = self.table.words().get(place..)?;
        from.get(..*from.get(SIZE_AT)? as usize)
    }

    /// The words of the bits of the bit field with this number.
    pub(crate) fn bit_field_words(self, number: u32) -> Option<&'a [u32]> {
        self.record(0, number).map(|record| &record[BIT_FIELD_BITS_AT..])
    }

    /// The name field of the stop with this number: see [`Table::stop_name`].
    pub(crate) fn name_field(self, stop: u32, bahnhof: &[u8]) -> Option<&[u8]> {
        let record = self.record(1, stop)?;
        bahnhof.get(record[STOP_NAME_AT] as usize..)?.get(..record[STOP_NAME_LENGTH_AT] as usize)
    }

    /// Whether there is a stop with this number.
    pub(crate) fn has_stop(self, stop: u32) -> bool {
        self.record(1, stop).is_some()
    }

    /// The class of a category by its word.
    pub(crate) fn class_of(self, category: u32) -> Option<u32> {
        self.record(3, category).map(|record| record[CLASS_AT])
    }

    /// Where the index's chains of a section begin, which stand in this order: bit fields (0), stops (1), interchange records (2), categories (3).
    /// After them (4) the places of the services.
    fn chains(self, section: usize) -> usize {
        SECTIONS[..section].iter().map(|(count_at, _)| CHAIN_WORDS * self.table.header(*count_at) as usize).sum()
    }

    /// The record of a section that has this first word, by its chain (`include/estelunya.h`, "Index"). What it gives has that first word, whatever
    /// the index says.
    fn record(self, section: usize, key: u32) -> Option<&'a [u32]> {
        let words = self.table.words();
        let before: usize = SECTIONS[..section].iter().map(|(at, size)| self.table.header(*at) as usize * size).sum();
        let (count_at, size) = SECTIONS[section];
        let (count, from) = (self.table.header(count_at), self.chains(section));
        let end = HEADER_WORDS + before + count as usize * size;
        let bucket = (u64::from(key.wrapping_mul(2_654_435_761)) * u64::from(count)) >> 32;
        let (mut bound, mut at) = (count, *self.index.get(from + CHAIN_WORDS * bucket as usize)?);
        // Records are counted from the end; a chain goes down.
        while at != 0 && at <= bound {
            let record = words.get(end - size * at as usize..)?.get(..size)?;
            if record[0] == key {
                return Some(record);
            }
            (bound, at) = (at - 1, *self.index.get(from + CHAIN_WORDS * at as usize - 1)?);
        }
        None
    }
}

/// Where the header says how many records a section has, and how many words each has: bit fields, stops, interchange records, categories.
const SECTIONS: [(usize, usize); 4] = [
    (BIT_FIELDS_AT, BIT_FIELD_WORDS),
    (STOPS_AT, STOP_WORDS),
    (INTERCHANGES_AT, INTERCHANGE_WORDS),
    (CLASSES_AT, CLASS_WORDS),
];

#[cfg(test)]
mod tests {
    use super::SECTIONS;
    use crate::layout::{FIRST_SERVICE_AT, HEADER_WORDS};
    use crate::Timetable;

    /// Every record is found by its number, and no other number.
    #[test]
    fn found() {
        let path = std::path::Path::new(option_env!("CARGO_MANIFEST_DIR").unwrap_or("planner"));
        let timetable = Timetable::read(path.join("../crates/ferry/data")).unwrap();
        let (table, indexed) = (timetable.by_number(), timetable.indexed());
        let mut place = HEADER_WORDS;
        for (section, (count_at, size)) in SECTIONS.iter().enumerate() {
            for _ in 0..table.header(*count_at) {
                let record = &table.words()[place..place + size];
                assert_eq!(indexed.record(section, record[0]), Some(record));
                assert_eq!(indexed.record(section, record[0] + 1_234_567), None);
                place += size;
            }
        }
        assert_eq!(place, table.header(FIRST_SERVICE_AT) as usize);
        assert_eq!((indexed.service_words(0).map(|words| words[1]), indexed.service_words(1)), (Some(42), None));
    }
}
