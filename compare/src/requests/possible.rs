//! What a quick question may answer by words that are not the table's index: only what some record of the table has that bears the number asked for.

use crate::layout::{
    BIT_FIELDS_AT, BIT_FIELD_BITS_AT, BIT_FIELD_NUMBER_AT, BIT_FIELD_WORDS, CLASSES_AT, CLASS_AT, CLASS_CODE_AT,
    CLASS_WORDS, FIRST_DAY_AT, FIRST_SERVICE_AT, HEADER_WORDS, INTERCHANGES_AT, INTERCHANGE_FIRST_TIME_AT,
    INTERCHANGE_SECOND_TIME_AT, INTERCHANGE_STOP_AT, INTERCHANGE_WORDS, PERIOD_DAYS_AT, STOPS_AT, STOP_NAME_AT,
    STOP_NAME_LENGTH_AT, STOP_NUMBER_AT, STOP_WORDS, USED_AT,
};
use crate::reader::bits::{runs_on, BitWords};
use crate::reader::calendar::{day_number, LAST_DAY, MOST_PERIOD_DAYS};
use crate::reader::names::{chosen, names, wanted};

/// The refusals of quick questions but 21 and 29.
pub const REFUSALS: [u32; 17] = [22, 23, 24, 25, 26, 27, 28, 31, 33, 34, 35, 36, 38, 39, 40, 41, 43];

/// The sections of words whose header is sound.
pub struct Possible<'a> {
    words: &'a [u32],
    fields: &'a [u32],
    stops: &'a [u32],
    interchanges: &'a [u32],
    classes: &'a [u32],
}

impl<'a> Possible<'a> {
    /// The conditions of 21 that the header alone has; `None` where one is broken.
    pub fn of(words: &'a [u32]) -> Option<Possible<'a>> {
        let used = *words.get(USED_AT)? as usize;
        if used < HEADER_WORDS || used > words.len() {
            return None;
        }
        let words = &words[..used];
        let (first, n) = (u64::from(words[FIRST_DAY_AT]), words[PERIOD_DAYS_AT]);
        if !(1..=MOST_PERIOD_DAYS).contains(&n) || first + u64::from(n) - 1 > u64::from(LAST_DAY) {
            return None;
        }
        let counts = [BIT_FIELDS_AT, STOPS_AT, INTERCHANGES_AT, CLASSES_AT].map(|at| u64::from(words[at]));
        let sizes = [BIT_FIELD_WORDS, STOP_WORDS, INTERCHANGE_WORDS, CLASS_WORDS].map(|size| size as u64);
        let lengths = [0, 1, 2, 3].map(|i| counts[i] * sizes[i]);
        let place = HEADER_WORDS as u64 + lengths.iter().sum::<u64>();
        if counts[2] == 0 || u64::from(words[FIRST_SERVICE_AT]) != place || place > used as u64 {
            return None;
        }
        let (fields, rest) = words[HEADER_WORDS..].split_at(lengths[0] as usize);
        let (stops, rest) = rest.split_at(lengths[1] as usize);
        let (interchanges, rest) = rest.split_at(lengths[2] as usize);
        let (classes, _) = rest.split_at(lengths[3] as usize);
        Some(Possible { words, fields, stops, interchanges, classes })
    }

    pub fn day(&self, [d, m, y]: [u32; 3], field: u32, runs: u32) -> bool {
        let day = match day_number(d, m, y).and_then(|day| day.checked_sub(self.words[FIRST_DAY_AT])) {
            Some(day) if day < self.words[PERIOD_DAYS_AT] => day,
            _ => return false,
        };
        let has = |record: &[u32]| {
            let mut bits: BitWords = [0; 12];
            bits.copy_from_slice(&record[BIT_FIELD_BITS_AT..]);
            record[BIT_FIELD_NUMBER_AT] == field && u32::from(runs_on(&bits, day)) == runs
        };
        (field == 0 && runs == 1) || (field != 0 && self.fields.chunks_exact(BIT_FIELD_WORDS).any(has))
    }

    pub fn minutes(&self, stop: u32, [arriving, departing]: [u32; 2], minutes: u32) -> bool {
        let at = if arriving <= 2 && departing <= 2 { INTERCHANGE_FIRST_TIME_AT } else { INTERCHANGE_SECOND_TIME_AT };
        let known = self.stops.chunks_exact(STOP_WORDS).any(|record| record[STOP_NUMBER_AT] == stop);
        let mut records = self.interchanges.chunks_exact(INTERCHANGE_WORDS).enumerate();
        known && records.any(|(i, record)| (i == 0 || record[INTERCHANGE_STOP_AT] == stop) && record[at] == minutes)
    }

    pub fn between(&self, stop: u32, categories: [u32; 2], minutes: u32) -> bool {
        let [arriving, departing] = categories.map(|code| self.classes_of(code));
        arriving.iter().any(|a| departing.iter().any(|d| self.minutes(stop, [*a, *d], minutes)))
    }

    fn classes_of(&self, code: u32) -> Vec<u32> {
        let records = self.classes.chunks_exact(CLASS_WORDS);
        records.filter(|record| record[CLASS_CODE_AT] == code).map(|record| record[CLASS_AT]).collect()
    }

    pub fn name(&self, bahnhof: &[u8], stop: u32, [language, kind]: [u32; 2], part: [u32; 2]) -> bool {
        let wanted = match wanted(language, kind) {
            Some(wanted) => wanted,
            None => return false,
        };
        let has = |record: &[u32]| {
            let (place, length) = (record[STOP_NAME_AT] as usize, record[STOP_NAME_LENGTH_AT] as usize);
            let names = bahnhof.get(place..).and_then(|rest| rest.get(..length)).and_then(names);
            let told = names.map(|names| {
                let name = chosen(&names, wanted);
                [place + name.start, name.length]
            });
            record[STOP_NUMBER_AT] == stop && told == Some(part.map(|word| word as usize))
        };
        self.stops.chunks_exact(STOP_WORDS).any(has)
    }
}
