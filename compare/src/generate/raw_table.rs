//! A table taken apart and written again, so that a damage to it can be one thing alone.

use crate::layout::{
    BIT_FIELDS_AT, BIT_FIELD_WORDS, CALLS_AT, CALL_WORDS, CATEGORIES_AT, CATEGORY_WORDS, CLASSES_AT, CLASS_WORDS,
    DAYS_AT, DAYS_WORDS, EXTRAS_AT, EXTRA_WORDS, FIRST_DAY_AT, FIRST_SERVICE_AT, HEADER_WORDS, INTERCHANGES_AT,
    INTERCHANGE_WORDS, PERIOD_DAYS_AT, SERVICES_AT, SERVICE_WORDS, SIZE_AT, STOPS_AT, STOP_WORDS, USED_AT,
};

/// A table in its parts; what the header and the services count is counted anew when it is written.
#[derive(Clone, Debug)]
pub struct RawTable {
    pub first_day: u32,
    pub days: u32,
    pub bitfields: Vec<[u32; BIT_FIELD_WORDS]>,
    pub stops: Vec<[u32; STOP_WORDS]>,
    pub records: Vec<[u32; INTERCHANGE_WORDS]>,
    pub classes: Vec<[u32; CLASS_WORDS]>,
    pub services: Vec<RawService>,
}

#[derive(Clone, Debug)]
pub struct RawService {
    pub head: [u32; SERVICE_WORDS],
    pub calls: Vec<[u32; CALL_WORDS]>,
    pub categories: Vec<[u32; CATEGORY_WORDS]>,
    pub days: Vec<[u32; DAYS_WORDS]>,
    pub others: Vec<[u32; EXTRA_WORDS]>,
}

/// Takes so many words from the front.
fn take<const N: usize>(words: &mut &[u32]) -> [u32; N] {
    let (front, rest) = words.split_at(N);
    *words = rest;
    let mut taken = [0; N];
    taken.copy_from_slice(front);
    taken
}

fn take_all<const N: usize>(words: &mut &[u32], records: u32) -> Vec<[u32; N]> {
    (0..records).map(|_| take(words)).collect()
}

/// The parts of a table that a load has written.
pub fn parts(table: &[u32]) -> RawTable {
    let mut words = table;
    let header: [u32; HEADER_WORDS] = take(&mut words);
    let bitfields = take_all(&mut words, header[BIT_FIELDS_AT]);
    let stops = take_all(&mut words, header[STOPS_AT]);
    let records = take_all(&mut words, header[INTERCHANGES_AT]);
    let classes = take_all(&mut words, header[CLASSES_AT]);
    let services = (0..header[SERVICES_AT]).map(|_| take_service(&mut words)).collect();
    let (first_day, days) = (header[FIRST_DAY_AT], header[PERIOD_DAYS_AT]);
    RawTable { first_day, days, bitfields, stops, records, classes, services }
}

fn take_service(words: &mut &[u32]) -> RawService {
    let head: [u32; SERVICE_WORDS] = take(words);
    RawService {
        head,
        calls: take_all(words, head[CALLS_AT]),
        categories: take_all(words, head[CATEGORIES_AT]),
        days: take_all(words, head[DAYS_AT]),
        others: take_all(words, head[EXTRAS_AT]),
    }
}

impl RawService {
    fn words(&self) -> Vec<u32> {
        let mut words = self.head.to_vec();
        words[CALLS_AT] = self.calls.len() as u32;
        words[CATEGORIES_AT] = self.categories.len() as u32;
        words[DAYS_AT] = self.days.len() as u32;
        words[EXTRAS_AT] = self.others.len() as u32;
        words.extend(self.calls.concat());
        words.extend(self.categories.concat());
        words.extend(self.days.concat());
        words.extend(self.others.concat());
        words[SIZE_AT] = words.len() as u32;
        words
    }
}

impl RawTable {
    pub fn words(&self) -> Vec<u32> {
        let mut words = vec![0; HEADER_WORDS];
        words.extend(self.bitfields.concat());
        words.extend(self.stops.concat());
        words.extend(self.records.concat());
        words.extend(self.classes.concat());
        let first_service = words.len();
        for service in &self.services {
            words.extend(service.words());
        }
        words[USED_AT] = words.len() as u32;
        words[FIRST_DAY_AT] = self.first_day;
        words[PERIOD_DAYS_AT] = self.days;
        words[BIT_FIELDS_AT] = self.bitfields.len() as u32;
        words[STOPS_AT] = self.stops.len() as u32;
        words[INTERCHANGES_AT] = self.records.len() as u32;
        words[SERVICES_AT] = self.services.len() as u32;
        words[FIRST_SERVICE_AT] = first_service as u32;
        words[CLASSES_AT] = self.classes.len() as u32;
        words
    }
}
