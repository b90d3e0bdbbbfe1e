//! The table's words.

use crate::bits::Bits;
use crate::fields::Time;
use crate::period::Period;
use crate::route::Call;
use crate::service::{Found, Ranges, Service};

pub const HEADER_WORDS: usize = 9;
pub const SERVICE_WORDS: usize = 12;
pub const CALL_WORDS: usize = 7;
pub const CATEGORY_WORDS: usize = 3;
pub const DAYS_WORDS: usize = 3;
pub const EXTRA_WORDS: usize = 4;

pub const KIND_Z: u32 = 0;
pub const KIND_T: u32 = 1;

pub const ARRIVAL: u32 = 1;
pub const DEPARTURE: u32 = 2;
pub const NO_ALIGHTING: u32 = 4;
pub const NO_BOARDING: u32 = 8;

/// A table as far as it is written: "Then per bit field 13, stop 3, interchange 3, then services, all in file order"; "a section of two words each (code,
/// class) stands before the services" (document 02, No. 1).
pub struct Table {
    words: Vec<u32>,
    bit_fields: u32,
    stops: u32,
    interchanges: u32,
    categories: u32,
    services: u32,
    first_service: usize,
}

impl Table {
    pub fn new(period: &Period) -> Table {
        let mut words = vec![0; HEADER_WORDS];
        words[1] = period.first_day;
        words[2] = period.days;
        Table {
            words,
            bit_fields: 0,
            stops: 0,
            interchanges: 0,
            categories: 0,
            services: 0,
            first_service: HEADER_WORDS,
        }
    }

    /// "number, 12 words"
    pub fn bit_field(&mut self, field: u32, bits: &Bits) {
        self.bit_fields += 1;
        self.words.push(field);
        self.section(&bits.0);
    }

    /// "number, byte offset of column 13 in BAHNHOF from 0, name length without trailing blanks"
    pub fn stop(&mut self, stop: u32, name_at: usize, name_length: usize) {
        self.stops += 1;
        self.section(&[stop, name_at as u32, name_length as u32]);
    }

    /// "number, two times"
    pub fn interchange(&mut self, stop: u32, [first, second]: [u32; 2]) {
        self.interchanges += 1;
        self.section(&[stop, first, second]);
    }

    /// "code, class"
    pub fn category(&mut self, code: u32, class: u32) {
        self.categories += 1;
        self.section(&[code, class]);
    }

    /// Words before the services.
    fn section(&mut self, words: &[u32]) {
        self.words.extend_from_slice(words);
        self.first_service = self.words.len();
    }

    /// A service's head, then its calls, *G, *A VE and other *A.
    pub fn service(&mut self, service: &Service, ranges: &Ranges) {
        self.services += 1;
        self.head(service, ranges);
        for call in &service.calls {
            self.words.extend_from_slice(&call_words(call));
        }
        for Found { given, from, to } in ranges.categories.iter().chain(&ranges.days) {
            self.words.extend_from_slice(&[*given, *from as u32, *to as u32]);
        }
        for Found { given, from, to } in &ranges.others {
            self.words.extend_from_slice(&[given.code, given.field, *from as u32, *to as u32]);
        }
    }

    /// "its word count, number, administration, repeats, offset, calls c, *G g, *A VE v, other a, *Z line"; "a twelfth word, its
    /// kind" (document 02, No. 8)
    fn head(&mut self, service: &Service, ranges: &Ranges) {
        let (calls, categories) = (service.calls.len(), ranges.categories.len());
        let (days, others) = (ranges.days.len(), ranges.others.len());
        let body = CALL_WORDS * calls + CATEGORY_WORDS * categories + DAYS_WORDS * days + EXTRA_WORDS * others;
        let opening = &service.opening;
        let [first, second] = opening.administration;
        let [calls, categories, days, others] = [calls, categories, days, others].map(|count| count as u32);
        self.words.extend_from_slice(&[
            (SERVICE_WORDS + body) as u32,
            opening.number,
            first,
            second,
            opening.repeats,
            opening.offset,
            calls,
            categories,
            days,
            others,
            opening.line,
            opening.kind,
        ]);
    }

    /// All words, with the header's counts: "words used, first day, n, bit fields B, stops S, interchange records U,
    /// services V, place of first service"; "the last being the count of categories".
    pub fn finish(mut self) -> Vec<u32> {
        self.words[0] = self.words.len() as u32;
        let counts = [self.bit_fields, self.stops, self.interchanges, self.services];
        self.words[3..7].copy_from_slice(&counts);
        self.words[7] = self.first_service as u32;
        self.words[8] = self.categories;
        self.words
    }
}

/// "the place of its stop" (document 02, No. 10); "arrival, departure, flags: 1 arrival, 2 departure, 4 no alighting, 8 no boarding; absent time 0"; "number and the two
/// administration words follow the flags"
fn call_words(call: &Call) -> [u32; CALL_WORDS] {
    let (arrival, alighting) = time_words(call.arrival, ARRIVAL, NO_ALIGHTING);
    let (departure, boarding) = time_words(call.departure, DEPARTURE, NO_BOARDING);
    let [first, second] = call.administration;
    [call.place, arrival, departure, alighting | boarding, call.number, first, second]
}

/// A time's minutes and flags.
fn time_words(time: Option<Time>, stated: u32, forbidden: u32) -> (u32, u32) {
    match time {
        None => (0, 0),
        Some(Time { minutes, forbids: false }) => (minutes, stated),
        Some(Time { minutes, forbids: true }) => (minutes, stated | forbidden),
    }
}

/// "Bytes share a word first byte highest."
pub fn packed(bytes: &[u8]) -> u32 {
    bytes.iter().fold(0, |word, byte| word << 8 | u32::from(*byte))
}
