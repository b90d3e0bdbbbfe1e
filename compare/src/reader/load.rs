//! The load of a delivery: "Order of offences", refusals 1 to 20; and of document 02 37 and 38, ZUGART (No. 1), 39, name lists (No. 3),
//! and 51, helper words (No. 13).

use std::collections::{HashMap, HashSet};

use super::bits::{frame_ok, BitWords};
use super::calendar::period;
use super::fields::{
    all_blank, column, count, date, density, detail, digits, digits_or_blank, hex_words, kind, means_days, packed,
    range_end, repeats_and_offset, running_time, time, Date, Detail, LineKind, RangeEnd,
};
use super::forms::{
    form_a, form_bitfield, form_category, form_date, form_g, form_interchange, form_schedule, form_stop, form_t, form_z,
};
use super::lines::{lines, skipped, Line};
use super::names::names;
use super::runs::Runs;
use super::service::{checked, Call, Draft, End, Given, Range, Service};
use super::table;
use crate::layout::{HELPER_HEAD_WORDS, HELPER_LINE_WORDS};

/// The answer of a load.
#[derive(Clone, Copy, Debug, PartialEq, Eq)]
pub enum Loaded {
    Accepted { words: u32 },
    Refused { number: u32, file: u32, line: u32, column: usize, needed: u32 },
}

/// A refusal 1 to 19 or 37 to 39; the column is 0 unless 4.
#[derive(Clone, Copy, Debug, PartialEq, Eq)]
pub struct Offence {
    pub number: u32,
    pub file: u32,
    pub line: u32,
    pub column: usize,
}

/// A BAHNHOF record: its number, where the name starts in the file, and its length.
#[derive(Clone, Copy, Debug)]
pub struct Stop {
    pub number: u32,
    pub name_at: u32,
    pub name_length: u32,
}

/// A UMSTEIGB record.
#[derive(Clone, Copy, Debug)]
pub struct Interchange {
    pub number: u32,
    pub times: [u32; 2],
}

/// A ZUGART record: a category's code in three bytes, and its class.
#[derive(Clone, Copy, Debug)]
pub struct Category {
    pub code: u32,
    pub class: u32,
}

/// A delivery that passed 1 to 19 and 37 to 39.
#[derive(Clone, Debug, Default)]
pub struct Delivery {
    pub first_day: u32,
    pub days: u32,
    pub bitfields: Vec<(u32, BitWords)>,
    pub stops: Vec<Stop>,
    pub interchange: Vec<Interchange>,
    pub categories: Vec<Category>,
    pub services: Vec<Service>,
}

/// 1: "file over 16,777,216 bytes"
pub const MOST_FILE_BYTES: usize = 16_777_216;

/// The number of the first UMSTEIGB record.
const DEFAULT_RECORD: u32 = 9_999_999;

/// 13: "in one service over 200 calls, 50 *G, 50 *A VE or 100 other *A"
pub const MOST_CALLS: usize = 200;
pub const MOST_CATEGORIES: usize = 50;
pub const MOST_DAY_RANGES: usize = 50;
pub const MOST_OTHERS: usize = 100;

/// No. 13: "helper words are lent: 64, and four for each line of BITFELD, BAHNHOF and UMSTEIGB".
pub fn helper_needed(files: [&[u8]; 6]) -> usize {
    let [_, bitfeld, bahnhof, umsteigb, ..] = files;
    HELPER_HEAD_WORDS
        + HELPER_LINE_WORDS * [bitfeld, bahnhof, umsteigb].map(|file| lines(file).len()).iter().sum::<usize>()
}

/// Loads the files by their numbers, ECKDATEN, BITFELD, BAHNHOF, UMSTEIGB, FPLAN, ZUGART. "A refusal returns number, file, line, and the
/// words needed (0 unless 20); the table stays as lent. Acceptance returns words used; later words stay." Document 02, No. 6:
/// "A refusal 4 also returns the column where the leftmost field or unnamed column that breaks the form starts ..; all other
/// refusals return 0 there." No. 13: "Those words hold 0 afterwards; any further ones stay. Refusals: 51, directly after 1, for
/// fewer helper words, file 0, line 0, with the words needed; after 1 and 51 all helper words stay."
pub fn load(files: [&[u8]; 6], lent: &mut [u32], helper: &mut [u32]) -> Loaded {
    if let Err(too_long) = check_lengths(files) {
        return refused(too_long);
    }
    let needed = helper_needed(files);
    match helper.get_mut(..needed) {
        Some(words) => words.fill(0),
        None => return Loaded::Refused { number: 51, file: 0, line: 0, column: 0, needed: needed as u32 },
    }
    let delivery = match read(files) {
        Ok(delivery) => delivery,
        Err(offence) => return refused(offence),
    };
    let words = table::words(&delivery);
    let used = words.len() as u32;
    if words.len() > lent.len() {
        return Loaded::Refused { number: 20, file: 0, line: 0, column: 0, needed: used };
    }
    lent[..words.len()].copy_from_slice(&words);
    Loaded::Accepted { words: used }
}

fn refused(Offence { number, file, line, column }: Offence) -> Loaded {
    Loaded::Refused { number, file, line, column, needed: 0 }
}

/// Document 02, No. 1: "ZUGART is file 6, its lengths and lines checked after UMSTEIGB's".
const ORDER: [u32; 6] = [1, 2, 3, 4, 6, 5];

/// "First, lengths in file order"
fn check_lengths(files: [&[u8]; 6]) -> Result<(), Offence> {
    for file in ORDER {
        if files[file as usize - 1].len() > MOST_FILE_BYTES {
            return refuse(1, file, 0);
        }
    }
    Ok(())
}

/// "then files 1 to 5, each by line", the sixth after the fourth. (FPLAN's services come with it.)
fn read(files: [&[u8]; 6]) -> Result<Delivery, Offence> {
    let mut delivery = Delivery::default();
    read_dates(files[0], &mut delivery)?;
    read_bitfields(files[1], &mut delivery)?;
    read_stops(files[2], &mut delivery)?;
    read_interchange(files[3], &mut delivery)?;
    read_categories(files[5], &mut delivery)?;
    read_services(files[4], &mut delivery)?;
    Ok(delivery)
}

fn refuse<T>(number: u32, file: u32, line: u32) -> Result<T, Offence> {
    Err(Offence { number, file, line, column: 0 })
}

/// "Except in ECKDATEN, a line that is all blank or starts with "%" is skipped but counted."
fn records(file: &[u8]) -> impl Iterator<Item = Line<'_>> {
    lines(file).into_iter().filter(|line| !skipped(line.text))
}

/// 4 in any file: a `form_..` has found a breaking column.
fn must_hold(form: Option<usize>, file: u32, line: &Line) -> Result<(), Offence> {
    match form {
        None => Ok(()),
        Some(column) => Err(Offence { number: 4, file, line: line.no, column }),
    }
}

/// The date of an ECKDATEN line: 4 for its form, 5 for "no such date".
fn read_date(line: &Line) -> Result<u32, Offence> {
    must_hold(form_date(line.text), 1, line)?;
    match date(line.text) {
        Date::Day(day) => Ok(day),
        _ => refuse(5, 1, line.no),
    }
}

/// ECKDATEN: "exactly three lines"; 2 comes "after the own checks of the lines that are there".
fn read_dates(file: &[u8], delivery: &mut Delivery) -> Result<(), Offence> {
    let found = lines(file);
    if let Some(line) = found.first() {
        delivery.first_day = read_date(line)?;
    }
    if let Some(line) = found.get(1) {
        let last_day = read_date(line)?;
        // 5: "end before start; over 380 days (line 2 for both last)"
        delivery.days = match period(delivery.first_day, last_day) {
            Some(days) => days,
            None => return refuse(5, 1, line.no),
        };
    }
    match found.len() {
        0..=2 => refuse(2, 1, found.len() as u32 + 1),
        3 => Ok(()),
        _ => refuse(3, 1, 4),
    }
}

/// BITFELD: within a line 4, 7, 6, 8.
fn read_bitfields(file: &[u8], delivery: &mut Delivery) -> Result<(), Offence> {
    let mut seen = HashSet::new();
    for line in records(file) {
        must_hold(form_bitfield(line.text), 2, &line)?;
        let (number, words) = match (digits(line.text, 1, 6), hex_words(line.text, 8)) {
            (Some(number), Some(words)) => (number, words),
            _ => unreachable!("its form holds"),
        };
        if number == 0 {
            return refuse(7, 2, line.no);
        }
        if !seen.insert(number) {
            return refuse(6, 2, line.no);
        }
        if !frame_ok(&words, delivery.days) {
            return refuse(8, 2, line.no);
        }
        delivery.bitfields.push((number, words));
    }
    Ok(())
}

/// The name "without trailing blanks", of columns 13-62 as far as the line goes.
fn name_field(line: &[u8]) -> &[u8] {
    let name = &line[12..line.len().min(62)];
    &name[..name.iter().rposition(|byte| *byte != b' ').map_or(0, |last| last + 1)]
}

/// BAHNHOF: within a line 4, 39, 7, 6. Open point: document 02, No. 3's "39 after 4" is directly after it.
fn read_stops(file: &[u8], delivery: &mut Delivery) -> Result<(), Offence> {
    let mut seen = HashSet::new();
    for line in records(file) {
        must_hold(form_stop(line.text), 3, &line)?;
        let field = name_field(line.text);
        // No. 3: "at load 39 after 4 for a bad list"
        if names(field).is_none() {
            return refuse(39, 3, line.no);
        }
        let number = digits(line.text, 1, 7).unwrap_or(0);
        // 7: "BAHNHOF stop 9999999 or ending 00000"
        if number == DEFAULT_RECORD || number % 100_000 == 0 {
            return refuse(7, 3, line.no);
        }
        if !seen.insert(number) {
            return refuse(6, 3, line.no);
        }
        // "byte offset of column 13 in BAHNHOF from 0"
        let name_at = line.start as u32 + 12;
        delivery.stops.push(Stop { number, name_at, name_length: field.len() as u32 });
    }
    Ok(())
}

/// UMSTEIGB: within a line 4, 7, 6, 9; 2 "without a record", at "lines + 1".
fn read_interchange(file: &[u8], delivery: &mut Delivery) -> Result<(), Offence> {
    let stops: HashSet<u32> = delivery.stops.iter().map(|stop| stop.number).collect();
    let mut seen = HashSet::new();
    for line in records(file) {
        must_hold(form_interchange(line.text), 4, &line)?;
        let number = digits(line.text, 1, 7).unwrap_or(0);
        let first = seen.is_empty();
        // 7: "first UMSTEIGB record not 9999999"
        if first && number != DEFAULT_RECORD {
            return refuse(7, 4, line.no);
        }
        if !seen.insert(number) {
            return refuse(6, 4, line.no);
        }
        // 9: "UMSTEIGB (after its first record) ... stop not in BAHNHOF"
        if !first && !stops.contains(&number) {
            return refuse(9, 4, line.no);
        }
        let times = [count(line.text, 9, 10).unwrap_or(0), count(line.text, 12, 13).unwrap_or(0)];
        delivery.interchange.push(Interchange { number, times });
    }
    if delivery.interchange.is_empty() {
        return refuse(2, 4, lines(file).len() as u32 + 1);
    }
    Ok(())
}

/// ZUGART (document 02, No. 1): within a line 4, "6 for a repeated code, then 37 for a tariff group missing or alone (first line that has one
/// where the file's first has none, or the other way)". Open point: the file's first is its first line that is not skipped. A file without a
/// record is right: 2 does not name it.
fn read_categories(file: &[u8], delivery: &mut Delivery) -> Result<(), Offence> {
    let mut seen = HashSet::new();
    let mut first_has_group = None;
    for line in records(file) {
        must_hold(form_category(line.text), 6, &line)?;
        let code = packed(line.text, 1, 3);
        if !seen.insert(code) {
            return refuse(6, 6, line.no);
        }
        let has_group = column(line.text, 8) != b' ';
        if *first_has_group.get_or_insert(has_group) != has_group {
            return refuse(37, 6, line.no);
        }
        delivery.categories.push(Category { code, class: count(line.text, 5, 6).unwrap_or(0) });
    }
    Ok(())
}

/// FPLAN while it is read: the stops, bit fields and categories of its own delivery, and the service under way.
struct Fplan {
    stops: HashSet<u32>,
    categories: HashSet<u32>,
    bitfields: HashMap<u32, BitWords>,
    days: u32,
    open: Option<Draft>,
    services: Vec<Service>,
}

/// FPLAN: "service by service: every line's own checks, then the service's checks".
fn read_services(file: &[u8], delivery: &mut Delivery) -> Result<(), Offence> {
    let mut fplan = Fplan {
        stops: delivery.stops.iter().map(|stop| stop.number).collect(),
        categories: delivery.categories.iter().map(|category| category.code).collect(),
        bitfields: delivery.bitfields.iter().copied().collect(),
        days: delivery.days,
        open: None,
        services: Vec::new(),
    };
    for line in records(file) {
        fplan.take(&line)?;
    }
    fplan.close()?;
    delivery.services = fplan.services;
    Ok(())
}

impl Fplan {
    /// One line: within it 12, 11, 4, 13, 9, 10, 38. A *Z or *T line first closes the service before it.
    fn take(&mut self, line: &Line) -> Result<(), Offence> {
        let kind = kind(line.text);
        if let LineKind::Z | LineKind::T = kind {
            self.close()?;
            self.open = Some(if kind == LineKind::Z { read_z(line)? } else { read_t(line)? });
            return Ok(());
        }
        let mut draft = match self.open.take() {
            Some(draft) => draft,
            // 12 "now reads "neither *Z nor *T, and neither yet"" (document 02, No. 8)
            None => return refuse(12, 5, line.no),
        };
        match kind {
            LineKind::Schedule => draft.calls.push(self.read_call(line, draft.calls.len())?),
            LineKind::G => draft.ranges.push(self.read_g(line, &draft.ranges)?),
            LineKind::A => draft.ranges.push(self.read_a(line, &draft.ranges)?),
            // 11: "other line kind"
            LineKind::Z | LineKind::T | LineKind::Other => return refuse(11, 5, line.no),
        }
        self.open = Some(draft);
        Ok(())
    }

    /// The checks of the service under way, if there is one.
    fn close(&mut self) -> Result<(), Offence> {
        if let Some(draft) = self.open.take() {
            let service = checked(draft, self.days, &self.bitfields);
            self.services.push(service.or_else(|(number, line)| refuse(number, 5, line))?);
        }
        Ok(())
    }

    fn read_call(&self, line: &Line, calls_before: usize) -> Result<Call, Offence> {
        must_hold(form_schedule(line.text), 5, line)?;
        if calls_before >= MOST_CALLS {
            return refuse(13, 5, line.no);
        }
        let stop = digits(line.text, 1, 7).unwrap_or(0);
        // 9: "schedule stop not in BAHNHOF"
        if !self.stops.contains(&stop) {
            return refuse(9, 5, line.no);
        }
        // Document 02, No. 5: "Columns 44-48 and 50-55 of schedule lines are now kept."
        let number = if all_blank(line.text, 44, 48) { None } else { digits(line.text, 44, 48) };
        let administration = if all_blank(line.text, 50, 55) { None } else { Some(administration(line.text, 50)) };
        let (arrival, departure) = (time(line.text, 30), time(line.text, 37));
        Ok(Call { line: line.no, stop, arrival, departure, number, administration })
    }

    fn read_g(&self, line: &Line, before: &[Range]) -> Result<Range, Offence> {
        must_hold(form_g(line.text), 5, line)?;
        let category = packed(line.text, 4, 6);
        let given = Given::Category(category);
        if same_kind(before, given) >= MOST_CATEGORIES {
            return refuse(13, 5, line.no);
        }
        // Document 02, No. 1: "38 for a *G category not listed, last in its line"
        if !self.categories.contains(&category) {
            return refuse(38, 5, line.no);
        }
        Ok(Range { line: line.no, given, from: read_end(line.text, 8, 24), to: read_end(line.text, 16, 31) })
    }

    fn read_a(&self, line: &Line, before: &[Range]) -> Result<Range, Offence> {
        must_hold(form_a(line.text), 5, line)?;
        let bitfield = digits_or_blank(line.text, 23, 28).unwrap_or(0);
        let (given, most) = if means_days(line.text) {
            (Given::Days { bitfield }, MOST_DAY_RANGES)
        } else {
            (Given::Other { code: packed(line.text, 4, 5), bitfield }, MOST_OTHERS)
        };
        if same_kind(before, given) >= most {
            return refuse(13, 5, line.no);
        }
        // 10: "bit field neither 000000 nor in BITFELD"
        if bitfield != 0 && !self.bitfields.contains_key(&bitfield) {
            return refuse(10, 5, line.no);
        }
        Ok(Range { line: line.no, given, from: read_end(line.text, 7, 30), to: read_end(line.text, 15, 37) })
    }
}

fn same_kind(ranges: &[Range], given: Given) -> usize {
    let kind = std::mem::discriminant(&given);
    ranges.iter().filter(|range| std::mem::discriminant(&range.given) == kind).count()
}

/// "administration (two words of three bytes, first byte highest)", from this column on
fn administration(line: &[u8], a: usize) -> [u32; 2] {
    [packed(line, a, a + 2), packed(line, a + 3, a + 5)]
}

fn read_z(line: &Line) -> Result<Draft, Offence> {
    must_hold(form_z(line.text), 5, line)?;
    let (repeats, offset) = repeats_and_offset(line.text).unwrap_or((0, 0));
    Ok(opened(line, Runs::Repeated { repeats, offset }))
}

fn read_t(line: &Line) -> Result<Draft, Offence> {
    must_hold(form_t(line.text), 5, line)?;
    match (running_time(line.text), density(line.text)) {
        (Some(running_time), Some(density)) => Ok(opened(line, Runs::Frequent { running_time, density })),
        _ => unreachable!("its form holds"),
    }
}

/// A service with nothing but its opening line; number and administration stand in the same columns of both kinds.
fn opened(line: &Line, runs: Runs) -> Draft {
    Draft {
        line: line.no,
        number: digits(line.text, 4, 8).unwrap_or(0),
        administration: administration(line.text, 10),
        runs,
        calls: Vec::new(),
        ranges: Vec::new(),
    }
}

/// "with no stop number it is not read"
fn read_end(line: &[u8], end: usize, beside: usize) -> End {
    let place = range_end(line, end);
    let detail = match place {
        RangeEnd::Stop(_) => detail(line, beside),
        _ => Detail::Plain,
    };
    End { place, detail }
}
