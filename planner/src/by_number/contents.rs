//! What a table lists: its services, stops, bit fields and categories, read from the places that document 01's section "Table" gives them.
//!
//! None of this asks the archive, or whether the words are a table ([`Table::day`] and the other questions do): of words
//! that are none it tells what stands in these places, or nothing where there are no such words.

use super::ask::Table;
use crate::handles::Listed;
use crate::kind::Kind;
use crate::layout::{
    BIT_FIELDS_AT, BIT_FIELD_BITS_AT, BIT_FIELD_NUMBER_AT, BIT_FIELD_WORDS, CLASSES_AT, CLASS_AT, CLASS_CODE_AT,
    CLASS_WORDS, FIRST_SERVICE_AT, HEADER_WORDS, INTERCHANGES_AT, INTERCHANGE_WORDS, NUMBER_AT, PERIOD_DAYS_AT,
    SERVICES_AT, SERVICE_WORDS, SIZE_AT, STOPS_AT, STOP_NAME_AT, STOP_NAME_LENGTH_AT, STOP_NUMBER_AT, STOP_WORDS,
    USED_AT,
};

impl<'a> Table<'a> {
    /// How many days the period has; 0 where there are fewer words than a header has.
    pub fn period_days(self) -> u32 {
        self.header(PERIOD_DAYS_AT)
    }

    /// How many services there are: a walk takes an index below it. 0 where there are fewer words than a header has.
    pub fn services(self) -> u32 {
        self.header(SERVICES_AT)
    }

    /// The numbers of all services (columns 4-8 of their *Z or *T lines), in FPLAN's order: the first is that of index 0.
    pub fn service_numbers(self) -> impl Iterator<Item = u32> + 'a {
        self.service_heads().map(|head| head[NUMBER_AT])
    }

    /// The number of the service with this index, columns 4-8 of its *Z or *T line; `None` if there is no such service.
    /// It passes over the services before it: for all of them take [`Table::service_numbers`].
    pub fn service_number(self, index: u32) -> Option<u32> {
        self.service_numbers().nth(index as usize)
    }

    /// The kind of the service with this index, which says its runs; `None` if there is no such service, or its words say what no
    /// table says. It passes over the services before it.
    pub fn kind(self, index: u32) -> Option<Kind> {
        self.service_heads().nth(index as usize).and_then(Kind::of_head)
    }

    /// How many stops there are; 0 where there are fewer words than a header has.
    pub fn stops(self) -> u32 {
        self.header(STOPS_AT)
    }

    /// The number of the stop with this index, in BAHNHOF's order; `None` if there is no such stop.
    pub fn stop_number(self, index: u32) -> Option<u32> {
        self.stop_records().nth(index as usize).map(|record| record[STOP_NUMBER_AT])
    }

    /// The name field of the stop with this number, as a [`Row`](crate::Row) says it: the bytes from column 13 of its line in
    /// BAHNHOF, without trailing blanks. All its names stand there with their patterns; the one to show is
    /// [`Stop::name`](crate::by_number::Stop::name). The bytes of BAHNHOF must be those that were loaded. `None` if the stop is not in
    /// the table, or these bytes do not reach so far.
    pub fn stop_name(self, stop: u32, bahnhof: &[u8]) -> Option<&[u8]> {
        let record = self.stop_records().find(|record| record[STOP_NUMBER_AT] == stop)?;
        let (start, length) = (record[STOP_NAME_AT] as usize, record[STOP_NAME_LENGTH_AT] as usize);
        bahnhof.get(start..)?.get(..length)
    }

    /// How many categories there are; 0 where there are fewer words than a header has.
    pub fn categories(self) -> u32 {
        self.header(CLASSES_AT)
    }

    /// The class of a category, 0 to 13, by its [word](crate::by_number::category_word); `None` if the category is not in the table.
    pub fn class_of(self, category: u32) -> Option<u32> {
        self.class_records().find(|record| record[CLASS_CODE_AT] == category).map(|record| record[CLASS_AT])
    }

    /// The words of the bits of the bit field with this number.
    pub(crate) fn bit_field_words(self, number: u32) -> Option<&'a [u32]> {
        self.bit_field_records()
            .find(|record| record[BIT_FIELD_NUMBER_AT] == number)
            .map(|record| &record[BIT_FIELD_BITS_AT..])
    }

    /// A word of the header.
    pub(crate) fn header(self, at: usize) -> u32 {
        if self.words().len() < HEADER_WORDS {
            return 0;
        }
        self.words()[at]
    }

    /// The table's own words from a place on.
    pub(crate) fn from(self, place: u64) -> &'a [u32] {
        let used = self.words().len().min(self.header(USED_AT) as usize);
        let start = used.min(usize::try_from(place).unwrap_or(used));
        &self.words()[start..used]
    }

    /// The bit fields that are listed, each with its number, in BITFELD's order.
    pub(crate) fn bit_field_records(self) -> impl Listed<&'a [u32]> {
        let fields = self.from(HEADER_WORDS as u64).chunks_exact(BIT_FIELD_WORDS);
        fields.take(self.header(BIT_FIELDS_AT) as usize)
    }

    /// Stop and two times of each interchange record, in UMSTEIGB's order.
    pub(crate) fn interchange_records(self) -> impl Listed<&'a [u32]> {
        self.from(self.first_interchange()).chunks_exact(INTERCHANGE_WORDS).take(self.header(INTERCHANGES_AT) as usize)
    }

    /// Code and class of each category, in ZUGART's order.
    pub(crate) fn class_records(self) -> impl Listed<&'a [u32]> {
        let first = self.first_interchange() + INTERCHANGE_WORDS as u64 * u64::from(self.header(INTERCHANGES_AT));
        self.from(first).chunks_exact(CLASS_WORDS).take(self.categories() as usize)
    }

    /// The head of each service, in FPLAN's order.
    pub(crate) fn service_heads(self) -> impl Iterator<Item = &'a [u32]> {
        self.service_records().map(|words| &words[..SERVICE_WORDS])
    }

    /// The words of each service, in FPLAN's order; at least its head.
    pub(crate) fn service_records(self) -> impl Iterator<Item = &'a [u32]> {
        records(self.from(u64::from(self.header(FIRST_SERVICE_AT)))).take(self.services() as usize)
    }

    /// Number, place and length of the name of each stop.
    pub(crate) fn stop_records(self) -> impl Listed<&'a [u32]> {
        self.from(self.first_stop()).chunks_exact(STOP_WORDS).take(self.stops() as usize)
    }

    /// The place of the first stop: header and bit fields stand before it.
    fn first_stop(self) -> u64 {
        HEADER_WORDS as u64 + BIT_FIELD_WORDS as u64 * u64::from(self.header(BIT_FIELDS_AT))
    }

    /// The place of the first interchange record: the stops stand before it.
    fn first_interchange(self) -> u64 {
        self.first_stop() + STOP_WORDS as u64 * u64::from(self.stops())
    }
}

/// The words of each service, whose first says where the next one is; as far as there are words, and no fewer than a head.
fn records(mut services: &[u32]) -> impl Iterator<Item = &[u32]> {
    std::iter::from_fn(move || {
        let head = services.get(..SERVICE_WORDS)?;
        let count = (head[SIZE_AT] as usize).max(SERVICE_WORDS).min(services.len());
        let (service, after) = services.split_at(count);
        services = after;
        Some(service)
    })
}
