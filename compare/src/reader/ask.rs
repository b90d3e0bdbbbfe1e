//! "Questions" on any words: refusals 21 to 36 without 32, and of document 02 38 (No. 1), and 39 to 41 (No. 3).

use super::bits::{runs_on, BitWords};
use super::calendar::{day_number, LAST_DAY, MOST_PERIOD_DAYS};
use super::forms::MOST_CLASS;
use super::load::{MOST_CALLS, MOST_CATEGORIES, MOST_DAY_RANGES, MOST_OTHERS};
use super::names::{chosen, names, wanted};
use super::runs::Runs;
use super::service::stretches;
use crate::layout::{
    ADMINISTRATION_AT, ARRIVAL, BIT_FIELDS_AT, BIT_FIELD_BITS_AT, BIT_FIELD_NUMBER_AT, BIT_FIELD_WORDS, CALLS_AT,
    CALL_ADMINISTRATION_AT, CALL_ARRIVAL_AT, CALL_DEPARTURE_AT, CALL_FLAGS_AT, CALL_NUMBER_AT, CALL_PLACE_AT,
    CALL_WORDS, CATEGORIES_AT, CATEGORY_CODE_AT, CATEGORY_FROM_AT, CATEGORY_TO_AT, CATEGORY_WORDS, CLASSES_AT,
    CLASS_AT, CLASS_CODE_AT, CLASS_WORDS, DAYS_AT, DAYS_FIELD_AT, DAYS_FROM_AT, DAYS_TO_AT, DAYS_WORDS, DEPARTURE,
    EXTRAS_AT, EXTRA_CODE_AT, EXTRA_FIELD_AT, EXTRA_FROM_AT, EXTRA_TO_AT, EXTRA_WORDS, FIRST_DAY_AT, FIRST_SERVICE_AT,
    HEADER_WORDS, INTERCHANGES_AT, INTERCHANGE_FIRST_TIME_AT, INTERCHANGE_SECOND_TIME_AT, INTERCHANGE_STOP_AT,
    INTERCHANGE_WORDS, KIND_AT, NO_ALIGHTING, NO_BOARDING, NUMBER_AT, OFFSET_AT, PERIOD_DAYS_AT, REPEATS_AT, ROW_WORDS,
    SERVICES_AT, SERVICE_WORDS, SIZE_AT, STOPS_AT, STOP_NAME_AT, STOP_NAME_LENGTH_AT, STOP_NUMBER_AT, STOP_WORDS,
    USED_AT,
};

/// The answer of a day question.
#[derive(Clone, Copy, Debug, PartialEq, Eq)]
pub enum DayAnswer {
    Runs,
    Rests,
    Refused { number: u32 },
}

/// The answer of an interchange question.
#[derive(Clone, Copy, Debug, PartialEq, Eq)]
pub enum Changed {
    Minutes(u32),
    Refused { number: u32 },
}

/// The answer of a question for a stop's name: the part of BAHNHOF that holds it.
#[derive(Clone, Copy, Debug, PartialEq, Eq)]
pub enum Named {
    Part { start: usize, length: usize },
    Refused { number: u32 },
}

/// The answer of a walk; `needed` is 0 unless 29.
#[derive(Clone, Copy, Debug, PartialEq, Eq)]
pub enum Walked {
    Rows(u32),
    NotRunning,
    Refused { number: u32, needed: u32 },
}

/// A range of the table: what it gives (category or bit field), over which route indexes.
#[derive(Clone, Copy, Debug)]
pub(super) struct Over {
    pub given: u32,
    pub from: u32,
    pub to: u32,
}

#[derive(Clone, Copy, Debug)]
pub(super) struct Call {
    /// Of its stop, in records from 0.
    pub place: u32,
    pub arrival: u32,
    pub departure: u32,
    pub flags: u32,
    pub number: u32,
    pub administration: [u32; 2],
}

#[derive(Clone, Debug)]
pub(super) struct Service {
    /// The place of its record in the table.
    pub at: usize,
    pub number: u32,
    pub administration: [u32; 2],
    pub runs: Runs,
    pub calls: Vec<Call>,
    pub categories: Vec<Over>,
    pub days: Vec<Over>,
    /// The bit field of each, over its range.
    pub others: Vec<Over>,
    /// The code of each of these.
    pub codes: Vec<u32>,
}

/// The table that words hold; the words are those used.
pub(super) struct Table<'a> {
    pub words: &'a [u32],
    bitfields: usize,
    stops: usize,
    records: usize,
    classes: usize,
    pub services: Vec<Service>,
}

/// The part of its route along which a service runs on a day, with a row for each call.
pub(super) struct Stretch {
    /// The route index of the first row.
    pub first: usize,
    pub rows: Vec<[u32; ROW_WORDS]>,
}

/// Whether the words are a table; if not, every question answers 21.
pub fn is_table(words: &[u32]) -> bool {
    table(words).is_some()
}

/// The conditions of 21 in the paper's order, counted exactly; document 02, No. 1: "21 reads the new sizes and refuses a class over 13".
pub(super) fn table(words: &[u32]) -> Option<Table<'_>> {
    let mut table = headed(words)?;
    table.services = services(table.words, table.stops as u32)?;
    // "a class over 13"
    Some(table).filter(|table| table.class_records().all(|record| record[CLASS_AT] <= MOST_CLASS))
}

/// The conditions of 21 that the header alone has; of the table's services none is looked at.
pub(super) fn headed(words: &[u32]) -> Option<Table<'_>> {
    // "fewer than 8, or words used under 8 or over those lent", where No. 1 says nine
    let used = *words.get(USED_AT)? as usize;
    if used < HEADER_WORDS || used > words.len() {
        return None;
    }
    let words = &words[..used];
    // "n not 1 to 380, or last day after 31.12.2199"
    let (first_day, n) = (u64::from(words[FIRST_DAY_AT]), words[PERIOD_DAYS_AT]);
    if !(1..=MOST_PERIOD_DAYS).contains(&n) || first_day + u64::from(n) - 1 > u64::from(LAST_DAY) {
        return None;
    }
    // "U is 0; word 7 is not 8 + 13B + 3S + 3U or is beyond words used", where No. 1 says 9 and adds 2K
    let [b, s, u, k] = [BIT_FIELDS_AT, STOPS_AT, INTERCHANGES_AT, CLASSES_AT].map(|at| u64::from(words[at]));
    let records = [(BIT_FIELD_WORDS, b), (STOP_WORDS, s), (INTERCHANGE_WORDS, u), (CLASS_WORDS, k)];
    let place = HEADER_WORDS as u64 + records.iter().map(|(size, count)| *size as u64 * count).sum::<u64>();
    if u == 0 || u64::from(words[FIRST_SERVICE_AT]) != place || place > used as u64 {
        return None;
    }
    let [bitfields, stops, records, classes] = [b, s, u, k].map(|count| count as usize);
    Some(Table { words, bitfields, stops, records, classes, services: Vec::new() })
}

/// "the V records do not end exactly at words used": the services from word 7 on, or nothing if they do not fit.
fn services(words: &[u32], stops: u32) -> Option<Vec<Service>> {
    let mut rest = &words[words[FIRST_SERVICE_AT] as usize..];
    let mut found = Vec::new();
    for _ in 0..words[SERVICES_AT] {
        let service = service(rest, words.len() - rest.len(), stops)?;
        rest = &rest[rest[SIZE_AT] as usize..];
        found.push(service);
    }
    if rest.is_empty() {
        Some(found)
    } else {
        None
    }
}

/// The service at the start of the words, if it stands there whole and keeps the conditions of 21; `at` is where they start in the table.
fn service(words: &[u32], at: usize, stops: u32) -> Option<Service> {
    sized(words, at).filter(|service| in_bounds(service, stops))
}

/// The same by its sizes and its opening line alone.
fn sized(words: &[u32], at: usize) -> Option<Service> {
    if words.len() < SERVICE_WORDS {
        return None;
    }
    let [c, g, v, a] = [CALLS_AT, CATEGORIES_AT, DAYS_AT, EXTRAS_AT].map(|at| words[at] as usize);
    let runs = Runs::of_words(words[KIND_AT], [words[REPEATS_AT], words[OFFSET_AT]])?;
    // "c outside 2 to 200, g, v, a over 50, 50, 100"
    if !(2..=MOST_CALLS).contains(&c) || g > MOST_CATEGORIES || v > MOST_DAY_RANGES || a > MOST_OTHERS {
        return None;
    }
    // "a count differs from 11 + 4c + 3g + 3v + 4a", where No. 5 says 7c and No. 8 twelve
    let count = SERVICE_WORDS + CALL_WORDS * c + CATEGORY_WORDS * g + DAYS_WORDS * v + EXTRA_WORDS * a;
    if words[SIZE_AT] as usize != count || count > words.len() {
        return None;
    }
    let (calls, rest) = words[SERVICE_WORDS..count].split_at(CALL_WORDS * c);
    let (categories, rest) = rest.split_at(CATEGORY_WORDS * g);
    let (days, others) = rest.split_at(DAYS_WORDS * v);
    Some(Service {
        at,
        number: words[NUMBER_AT],
        administration: [words[ADMINISTRATION_AT], words[ADMINISTRATION_AT + 1]],
        runs,
        calls: calls.chunks_exact(CALL_WORDS).map(call).collect(),
        categories: over(categories, CATEGORY_WORDS, [CATEGORY_CODE_AT, CATEGORY_FROM_AT, CATEGORY_TO_AT]),
        days: over(days, DAYS_WORDS, [DAYS_FIELD_AT, DAYS_FROM_AT, DAYS_TO_AT]),
        others: over(others, EXTRA_WORDS, [EXTRA_FIELD_AT, EXTRA_FROM_AT, EXTRA_TO_AT]),
        codes: others.chunks_exact(EXTRA_WORDS).map(|other| other[EXTRA_CODE_AT]).collect(),
    })
}

fn call(words: &[u32]) -> Call {
    Call {
        place: words[CALL_PLACE_AT],
        arrival: words[CALL_ARRIVAL_AT],
        departure: words[CALL_DEPARTURE_AT],
        flags: words[CALL_FLAGS_AT],
        number: words[CALL_NUMBER_AT],
        administration: [words[CALL_ADMINISTRATION_AT], words[CALL_ADMINISTRATION_AT + 1]],
    }
}

/// Ranges of so many words each, of which these say what is given, from and to.
fn over(words: &[u32], size: usize, [given, from, to]: [usize; 3]) -> Vec<Over> {
    words.chunks_exact(size).map(|range| Over { given: range[given], from: range[from], to: range[to] }).collect()
}

/// "a time over 59,999, flags over 15; a range end not below c or in wrong order"; document 02, No. 10: "21 additionally refuses a place not below S".
fn in_bounds(service: &Service, stops: u32) -> bool {
    let c = service.calls.len() as u32;
    service.calls.iter().all(|call| call.is_sound(stops))
        && service.categories.iter().chain(&service.days).all(|range| range.is_below(c) && range.from < range.to)
        && service.has_sound_others()
}

impl Call {
    pub(super) fn is_sound(&self, stops: u32) -> bool {
        self.place < stops && self.arrival <= 59_999 && self.departure <= 59_999 && self.flags <= 15
    }
}

impl Over {
    fn is_below(&self, calls: u32) -> bool {
        self.from < calls && self.to < calls
    }
}

impl Service {
    pub(super) fn has_sound_others(&self) -> bool {
        let c = self.calls.len() as u32;
        self.others.iter().all(|range| range.is_below(c) && range.from <= range.to)
    }
}

impl<'a> Table<'a> {
    /// 22 "no such date", 23 "outside the period"; else the day of the period.
    pub(super) fn day_of(&self, d: u32, m: u32, y: u32) -> Result<u32, u32> {
        let day = day_number(d, m, y).ok_or(22_u32)?;
        match day.checked_sub(self.words[FIRST_DAY_AT]) {
            Some(in_period) if in_period < self.words[PERIOD_DAYS_AT] => Ok(in_period),
            _ => Err(23),
        }
    }

    /// The stops: number, place and length of the name of each.
    pub(super) fn stop_records(&self) -> impl Iterator<Item = &'a [u32]> {
        let start = HEADER_WORDS + BIT_FIELD_WORDS * self.bitfields;
        self.words[start..].chunks_exact(STOP_WORDS).take(self.stops)
    }

    /// Its stops S.
    pub(super) fn stops(&self) -> u32 {
        self.stops as u32
    }

    /// The service whose record begins at a word, if its sizes and its opening line are sound.
    pub(super) fn sized_at(&self, at: usize) -> Option<Service> {
        self.words.get(at..).and_then(|words| sized(words, at))
    }

    /// Whether such a service keeps the other conditions of 21 too.
    pub(super) fn is_sound(&self, service: &Service) -> bool {
        in_bounds(service, self.stops())
    }

    /// The number of the stop at a place, counted in records from 0.
    pub(super) fn stop_at(&self, place: u32) -> u32 {
        match self.stop_records().nth(place as usize) {
            Some(record) => record[STOP_NUMBER_AT],
            None => unreachable!("21 refuses a place not below S"),
        }
    }

    /// The first record of a stop.
    fn stop_record(&self, stop: u32) -> Option<&'a [u32]> {
        self.stop_records().find(|record| record[STOP_NUMBER_AT] == stop)
    }

    pub(super) fn stop_known(&self, stop: u32) -> bool {
        self.stop_record(stop).is_some()
    }

    /// "the stop's record, else the first record"; "Lookups take the first match."
    fn interchange_times(&self, stop: u32) -> [u32; 2] {
        let own = self.interchange_records().find(|record| record[INTERCHANGE_STOP_AT] == stop);
        match own.or_else(|| self.interchange_records().next()) {
            Some(record) => [record[INTERCHANGE_FIRST_TIME_AT], record[INTERCHANGE_SECOND_TIME_AT]],
            None => unreachable!("21 refuses a U of 0"),
        }
    }

    /// The interchange records: number and two times of each.
    pub(super) fn interchange_records(&self) -> impl Iterator<Item = &'a [u32]> {
        let start = HEADER_WORDS + BIT_FIELD_WORDS * self.bitfields + STOP_WORDS * self.stops;
        self.words[start..].chunks_exact(INTERCHANGE_WORDS).take(self.records)
    }

    /// "The first time applies when both classes are 0, 1 or 2" (No. 2), else the second.
    pub(super) fn minutes(&self, stop: u32, class_a: u32, class_b: u32) -> u32 {
        let [first, second] = self.interchange_times(stop);
        if class_a <= 2 && class_b <= 2 {
            first
        } else {
            second
        }
    }

    /// Code and class of each category; they end where the services begin.
    pub(super) fn class_records(&self) -> impl Iterator<Item = &'a [u32]> {
        let end = self.words[FIRST_SERVICE_AT] as usize;
        self.words[end - CLASS_WORDS * self.classes..end].chunks_exact(CLASS_WORDS)
    }

    /// The class of a category.
    pub(super) fn class_of(&self, category: u32) -> Option<u32> {
        self.class_records().find(|record| record[CLASS_CODE_AT] == category).map(|record| record[CLASS_AT])
    }

    /// The bit fields: number and twelve words of each.
    pub(super) fn bit_field_records(&self) -> impl Iterator<Item = &'a [u32]> {
        self.words[HEADER_WORDS..].chunks_exact(BIT_FIELD_WORDS).take(self.bitfields)
    }

    /// Whether a bit field runs on a day, "0 always runs"; `None` if there is no such bit field.
    fn bitfield_runs(&self, number: u32, day: u32) -> Option<bool> {
        if number == 0 {
            return Some(true);
        }
        let record = self.bit_field_records().find(|record| record[BIT_FIELD_NUMBER_AT] == number)?;
        let mut bits: BitWords = [0; 12];
        bits.copy_from_slice(&record[BIT_FIELD_BITS_AT..]);
        Some(runs_on(&bits, day))
    }

    /// "Each leg in order: 34 not exactly one *A VE, 31 its bit field unknown."
    pub(super) fn operated(&self, service: &Service, day: u32) -> Result<Vec<bool>, u32> {
        let legs = service.calls.len() - 1;
        (0..legs)
            .map(|leg| {
                let bitfield = only_one(&service.days, leg).ok_or(34_u32)?;
                self.bitfield_runs(bitfield, day).ok_or(31_u32)
            })
            .collect()
    }
}

/// What the one range over a leg gives; `None` if there is not exactly one.
fn only_one(ranges: &[Over], leg: usize) -> Option<u32> {
    let leg = leg as u32;
    let mut covering = ranges.iter().filter(|range| range.from <= leg && leg < range.to);
    match (covering.next(), covering.next()) {
        (Some(range), None) => Some(range.given),
        _ => None,
    }
}

/// "Order: 21, 22 no such date ..., 23 outside the period, then the question's own. Day: 28 no such bit field (0
/// always runs)."
pub fn day(words: &[u32], d: u32, m: u32, y: u32, bitfield: u32) -> DayAnswer {
    let answer = table(words).ok_or(21_u32).and_then(|table| {
        let day = table.day_of(d, m, y)?;
        table.bitfield_runs(bitfield, day).ok_or(28)
    });
    match answer {
        Ok(true) => DayAnswer::Runs,
        Ok(false) => DayAnswer::Rests,
        Err(number) => DayAnswer::Refused { number },
    }
}

/// "Interchange (no date): 26 class over 13, 27 stop unknown; the stop's record, else the first record", and
/// document 02, No. 2, in place of "both classes 0 or 1": "The first time applies when both classes are 0, 1 or 2."
pub fn interchange(words: &[u32], stop: u32, class_a: u32, class_b: u32) -> Changed {
    let table = match table(words) {
        Some(table) => table,
        None => return Changed::Refused { number: 21 },
    };
    if class_a > MOST_CLASS || class_b > MOST_CLASS {
        return Changed::Refused { number: 26 };
    }
    if !table.stop_known(stop) {
        return Changed::Refused { number: 27 };
    }
    Changed::Minutes(table.minutes(stop, class_a, class_b))
}

/// Document 02, No. 1: "The new question takes a stop and two categories." "38 for a *G category not listed, .. in the question, after 27".
pub fn interchange_between(words: &[u32], stop: u32, category_a: u32, category_b: u32) -> Changed {
    let table = match table(words) {
        Some(table) => table,
        None => return Changed::Refused { number: 21 },
    };
    if !table.stop_known(stop) {
        return Changed::Refused { number: 27 };
    }
    match (table.class_of(category_a), table.class_of(category_b)) {
        (Some(class_a), Some(class_b)) => Changed::Minutes(table.minutes(stop, class_a, class_b)),
        _ => Changed::Refused { number: 38 },
    }
}

/// Document 02, No. 3: "Asked for a stop, a language and a type (0 for any), answer .., as the part of BAHNHOF that holds it.
/// Refusals: .. in the question, in order, 21, 40 .., 27, 41 name not inside the bytes given, 39."
pub fn stop_name(words: &[u32], bahnhof: &[u8], stop: u32, language: u32, kind: u32) -> Named {
    match found_name(words, bahnhof, stop, language, kind) {
        Ok((start, length)) => Named::Part { start, length },
        Err(number) => Named::Refused { number },
    }
}

fn found_name(words: &[u32], bahnhof: &[u8], stop: u32, language: u32, kind: u32) -> Result<(usize, usize), u32> {
    let table = table(words).ok_or(21_u32)?;
    let wanted = wanted(language, kind).ok_or(40_u32)?;
    let record = table.stop_record(stop).ok_or(27_u32)?;
    let (place, length) = (record[STOP_NAME_AT] as usize, record[STOP_NAME_LENGTH_AT] as usize);
    let field = bahnhof.get(place..).and_then(|rest| rest.get(..length)).ok_or(41_u32)?;
    let names = names(field).ok_or(39_u32)?;
    let name = chosen(&names, wanted);
    Ok((place + name.start, name.length))
}

/// "Walk of service, repeat, date": the rows go into the slice lent, unless the walk is refused or not running.
pub fn walk(words: &[u32], service: u32, repeat: u32, d: u32, m: u32, y: u32, rows: &mut [u32]) -> Walked {
    let listed = match walked_rows(words, service, repeat, d, m, y) {
        Ok(listed) => listed,
        Err(number) => return Walked::Refused { number, needed: 0 },
    };
    let flat = listed.concat();
    if listed.is_empty() {
        return Walked::NotRunning;
    }
    // "Then 29 row slice too short."
    if flat.len() > rows.len() {
        return Walked::Refused { number: 29, needed: flat.len() as u32 };
    }
    rows[..flat.len()].copy_from_slice(&flat);
    Walked::Rows(listed.len() as u32)
}

/// The rows of a walk, none if it is "not running"; all of its refusals but 29.
fn walked_rows(words: &[u32], service: u32, repeat: u32, d: u32, m: u32, y: u32) -> Result<Vec<[u32; ROW_WORDS]>, u32> {
    let table = table(words).ok_or(21_u32)?;
    let day = table.day_of(d, m, y)?;
    Ok(table.walked(service, repeat, day)?.map_or(Vec::new(), |stretch| stretch.rows))
}

impl Table<'_> {
    /// The stretch of a walk on a day of the period, `None` if it is "not running"; of its refusals those from 24 on but 29.
    pub(super) fn walked(&self, service: u32, repeat: u32, day: u32) -> Result<Option<Stretch>, u32> {
        // "24 service index not below V"
        let service = self.services.get(service as usize).ok_or(24_u32)?;
        self.walked_along(service, repeat, day)
    }

    pub(super) fn walked_along(&self, service: &Service, repeat: u32, day: u32) -> Result<Option<Stretch>, u32> {
        // "25 repeat number over repeats (0 is the run itself)"; No. 8: "25 follows the rule above"
        let late = service.runs.late(repeat).ok_or(25_u32)?;
        let operated = self.operated(service, day)?;
        // "No leg operated: "not running", no rows. 35 two stretches."
        let first = match operated.iter().position(|runs| *runs) {
            Some(first) => first,
            None => return Ok(None),
        };
        if stretches(&operated) >= 2 {
            return Err(35);
        }
        let last = first + operated[first..].iter().take_while(|runs| **runs).count();
        let mut before = 0;
        let rows: Result<Vec<_>, u32> =
            (first..=last).map(|i| row(self, service, (first, i, last), late, &mut before)).collect();
        Ok(Some(Stretch { first, rows: rows? }))
    }
}

/// One call of the stretch: "36 a time needed ... missing or below the needed one before, 33 leaving leg without exactly one *G", then its row. "Rows still
/// show the number" (document 02, No. 10), that of the record at the place, and its interchange times go by it; 32 is retired. Open point: first and last are those
/// of the stretch.
fn row(
    table: &Table,
    service: &Service,
    (first, i, last): (usize, usize, usize),
    late: u32,
    before: &mut u32,
) -> Result<[u32; ROW_WORDS], u32> {
    let call = service.calls[i];
    let stop = table.stop_at(call.place);
    // "First row: arrival 0, flags 1 and 4 cleared. Last: departure 0, flags 2 and 8 cleared, category 0."
    let (mut arrival, mut departure, mut category, mut flags) = (0, 0, 0, call.flags);
    if i == first {
        flags &= !(ARRIVAL | NO_ALIGHTING);
    } else {
        arrival = late + needed_time(call.arrival, call.flags & ARRIVAL, before)?;
    }
    if i == last {
        flags &= !(DEPARTURE | NO_BOARDING);
    } else {
        departure = late + needed_time(call.departure, call.flags & DEPARTURE, before)?;
        category = only_one(&service.categories, i).ok_or(33_u32)?;
    }
    let [same, other] = table.interchange_times(stop);
    // Document 02, No. 5: "Rows grow to 10 in the same way".
    let [high, low] = call.administration;
    Ok([stop, arrival, departure, flags, call.number, high, low, category, same, other])
}

/// 36: "a time needed ... missing or below the needed one before". Open point: missing goes by the flags.
fn needed_time(time: u32, has: u32, before: &mut u32) -> Result<u32, u32> {
    if has == 0 || time < *before {
        return Err(36);
    }
    *before = time;
    Ok(time)
}
