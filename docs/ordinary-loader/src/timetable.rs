//! A timetable in memory, as a program without proofs would keep it: structs for the services, a map for each file that is looked up by number, and for each stop the calls there.
//! It is made once of the words of an accepted delivery, and answers questions from then on. It checks nothing that the load has checked.

use std::collections::HashMap;

use crate::bits::Bits;
use crate::calendar::Date;
use crate::names;
use crate::sections::MOST_CLASS;
use crate::table::{
    ARRIVAL, CALL_WORDS, CATEGORY_WORDS, DAYS_WORDS, DEPARTURE, EXTRA_WORDS, HEADER_WORDS, KIND_T, NO_ALIGHTING,
    NO_BOARDING, SERVICE_WORDS,
};

/// The greatest class of a first interchange time.
const FIRST_TIME_CLASS: u32 = 2;

/// A refusal's number (document 01, "Questions"; document 02).
pub type Number = u32;

/// Day, month and year.
pub type Day = [u32; 3];

/// A delivery's timetable.
#[derive(Debug)]
pub struct Timetable {
    pub(crate) first_day: u32,
    pub(crate) days: u32,
    fields: HashMap<u32, Bits>,
    pub(crate) stops: Vec<Stop>,
    places: HashMap<u32, usize>,
    interchanges: HashMap<u32, [u32; 2]>,
    /// That of every stop without its own.
    every_stop: [u32; 2],
    classes: HashMap<u32, u32>,
    pub(crate) services: Vec<Service>,
}

/// A stop, with the calls there.
#[derive(Debug)]
pub(crate) struct Stop {
    pub number: u32,
    name_at: usize,
    name_length: usize,
    pub calls: Vec<CallAt>,
}

/// A call by its service and its place in the route.
#[derive(Clone, Copy, Debug)]
pub(crate) struct CallAt {
    pub service: u32,
    pub place: u32,
}

/// A service of FPLAN.
#[derive(Debug)]
pub(crate) struct Service {
    pub number: u32,
    pub administration: [u32; 2],
    pub runs: Runs,
    pub calls: Vec<Call>,
    /// By the legs that they cover, in order.
    pub categories: Vec<Span>,
    pub days: Vec<Span>,
    /// *G, *A VE and other *A as they stand in FPLAN, for the writer.
    pub written: Written,
}

/// The ranges of a service in the order of their lines.
#[derive(Debug)]
pub(crate) struct Written {
    pub categories: Vec<Span>,
    pub days: Vec<Span>,
    pub others: Vec<(u32, Span)>,
}

/// Which runs a service has.
#[derive(Clone, Copy, Debug)]
pub(crate) enum Runs {
    Repeats { repeats: u32, offset: u32 },
    Frequency { running_time: u32, density: u32 },
}

/// A category or bit field over the legs from one call to another.
#[derive(Clone, Copy, Debug)]
pub(crate) struct Span {
    pub given: u32,
    pub from: u32,
    pub to: u32,
}

/// A call of a route.
#[derive(Clone, Copy, Debug)]
pub(crate) struct Call {
    pub stop: u32,
    pub arrival: u32,
    pub departure: u32,
    pub flags: u32,
    pub number: u32,
    pub administration: [u32; 2],
}

/// A row of a walk: document 01's seven words, and the three of document 02, No. 5.
#[derive(Clone, Copy, Debug, PartialEq, Eq)]
pub struct Row {
    /// The number of the stop.
    pub stop: u32,
    /// In minutes; 0 in the first row.
    pub arrival: u32,
    /// In minutes; 0 in the last row.
    pub departure: u32,
    /// As in the table.
    pub flags: u32,
    /// The number that holds there.
    pub number: u32,
    /// The administration that holds there.
    pub administration: [u32; 2],
    /// Of the leaving leg; 0 in the last row.
    pub category: u32,
    /// The stop's two interchange times.
    pub interchange: [u32; 2],
}

/// The calls of a route along which a service runs on a day.
#[derive(Clone, Copy, Debug)]
pub(crate) struct Stretch {
    pub first: u32,
    pub last: u32,
}

impl Runs {
    /// The minutes that a run is late; `None` if there is no such run.
    pub fn late(self, run: u32) -> Option<u32> {
        match self {
            Runs::Repeats { repeats, offset } if run <= repeats => Some(run * offset),
            Runs::Frequency { running_time, density } => {
                let seconds = u64::from(run) * u64::from(density);
                if seconds > 60 * u64::from(running_time) {
                    return None;
                }
                Some(((seconds + 59) / 60) as u32)
            }
            _ => None,
        }
    }

    /// The runs that are late by so many minutes at least and at most, as a range; `None` if there is none.
    pub fn within(self, least: u32, most: u32) -> Option<(u32, u32)> {
        let (least, most) = (u64::from(least), u64::from(most));
        let (from, to) = match self {
            // a delivery has no repeats without an offset
            Runs::Repeats { offset: 0, .. } => (least, 0),
            Runs::Repeats { repeats, offset } => {
                let offset = u64::from(offset);
                ((least + offset - 1) / offset, (most / offset).min(repeats.into()))
            }
            Runs::Frequency { running_time, density } => {
                let from = if least == 0 { 0 } else { 60 * (least - 1) / u64::from(density) + 1 };
                (from, 60 * most.min(running_time.into()) / u64::from(density))
            }
        };
        if from > to {
            return None;
        }
        Some((from as u32, to as u32))
    }
}

/// Words as records of so many.
fn records(words: &[u32], count: u32, size: usize) -> impl Iterator<Item = &[u32]> {
    words.chunks_exact(size).take(count as usize)
}

impl Timetable {
    /// Of the words of an accepted delivery.
    pub fn from_words(words: &[u32]) -> Timetable {
        let [fields, stops, interchanges, classes] = [words[3], words[4], words[5], words[8]];
        let (bit_words, rest) = words[HEADER_WORDS..].split_at(13 * fields as usize);
        let (stop_words, rest) = rest.split_at(3 * stops as usize);
        let (interchange_words, rest) = rest.split_at(3 * interchanges as usize);
        let bits = |record: &[u32]| {
            let mut bits = Bits::NONE;
            bits.0.copy_from_slice(&record[1..]);
            (record[0], bits)
        };
        let stop = |record: &[u32]| Stop {
            number: record[0],
            name_at: record[1] as usize,
            name_length: record[2] as usize,
            calls: Vec::new(),
        };
        let mut timetable = Timetable {
            first_day: words[1],
            days: words[2],
            fields: records(bit_words, fields, 13).map(bits).collect(),
            stops: records(stop_words, stops, 3).map(stop).collect(),
            places: records(stop_words, stops, 3).zip(0..).map(|(record, place)| (record[0], place)).collect(),
            interchanges: records(interchange_words, interchanges, 3)
                .map(|record| (record[0], [record[1], record[2]]))
                .collect(),
            every_stop: [interchange_words[1], interchange_words[2]],
            classes: records(rest, classes, 2).map(|record| (record[0], record[1])).collect(),
            services: Vec::with_capacity(words[6] as usize),
        };
        timetable.read_services(&words[words[7] as usize..], words[6]);
        timetable
    }

    fn read_services(&mut self, mut words: &[u32], count: u32) {
        for service in 0..count {
            let (record, rest) = words.split_at(words[0] as usize);
            let read = Service::from_words(record);
            for (call, place) in record[SERVICE_WORDS..].chunks_exact(CALL_WORDS).zip(0..read.calls.len() as u32) {
                self.stops[call[0] as usize].calls.push(CallAt { service, place });
            }
            self.services.push(read);
            words = rest;
        }
    }

    /// The day of the period: 22, 23.
    pub(crate) fn day_of(&self, date: Day) -> Result<u32, Number> {
        let day = Date::of(date).day_number().ok_or(22_u32)?;
        match day.checked_sub(self.first_day) {
            Some(day) if day < self.days => Ok(day),
            _ => Err(23),
        }
    }

    /// Whether a bit field runs on a day of the period; `None` if it is unknown.
    fn field_runs(&self, field: u32, day: u32) -> Option<bool> {
        if field == 0 {
            return Some(true);
        }
        self.fields.get(&field).map(|bits| bits.has(day + 2))
    }

    /// The place of a stop: 27.
    pub(crate) fn place_of(&self, stop: u32) -> Result<usize, Number> {
        self.places.get(&stop).copied().ok_or(27)
    }

    /// A stop's own interchange times, else those of every stop.
    pub(crate) fn times_of(&self, stop: u32) -> [u32; 2] {
        self.interchanges.get(&stop).copied().unwrap_or(self.every_stop)
    }

    pub(crate) fn class_of(&self, category: u32) -> Result<u32, Number> {
        self.classes.get(&category).copied().ok_or(38)
    }

    /// Whether a bit field runs on a date: 22, 23, 28.
    pub fn day(&self, date: Day, field: u32) -> Result<bool, Number> {
        let day = self.day_of(date)?;
        self.field_runs(field, day).ok_or(28)
    }

    /// The minutes to change at a stop between two classes: 26, 27.
    pub fn interchange(&self, stop: u32, arriving: u32, departing: u32) -> Result<u32, Number> {
        if arriving > MOST_CLASS || departing > MOST_CLASS {
            return Err(26);
        }
        self.place_of(stop)?;
        Ok(time_between(self.times_of(stop), arriving, departing))
    }

    /// The minutes to change at a stop between two categories: 27, 38.
    pub fn interchange_between(&self, stop: u32, arriving: u32, departing: u32) -> Result<u32, Number> {
        self.place_of(stop)?;
        let (arriving, departing) = (self.class_of(arriving)?, self.class_of(departing)?);
        Ok(time_between(self.times_of(stop), arriving, departing))
    }

    /// A stop's name in a language and of a type: 40, 27, 41, 39.
    pub fn stop_name<'a>(&self, bahnhof: &'a [u8], stop: u32, language: u32, kind: u32) -> Result<&'a [u8], Number> {
        let wanted = names::Wanted::new(language, kind).ok_or(40_u32)?;
        let Stop { name_at, name_length, .. } = self.stops[self.place_of(stop)?];
        let field = bahnhof.get(name_at..).and_then(|rest| rest.get(..name_length)).ok_or(41_u32)?;
        names::fitting(field, wanted).ok_or(39)
    }

    /// The rows of a run; none if it is not running: 22 to 25.
    pub fn walk(&self, service: u32, repeat: u32, date: Day, rows: &mut Vec<Row>) -> Result<(), Number> {
        rows.clear();
        let day = self.day_of(date)?;
        let service = self.services.get(service as usize).ok_or(24_u32)?;
        let late = service.runs.late(repeat).ok_or(25_u32)?;
        let stretch = match self.stretch_of(service, day) {
            Some(stretch) => stretch,
            None => return Ok(()),
        };
        let mut categories = service.categories.iter().skip_while(|span| span.to <= stretch.first).peekable();
        for place in stretch.first..=stretch.last {
            let call = &service.calls[place as usize];
            let stop = self.stops[call.stop as usize].number;
            let mut row = Row {
                stop,
                arrival: call.arrival + late,
                departure: call.departure + late,
                flags: call.flags,
                number: call.number,
                administration: call.administration,
                category: 0,
                interchange: self.times_of(stop),
            };
            if place == stretch.first {
                row.arrival = 0;
                row.flags &= !(ARRIVAL | NO_ALIGHTING);
            }
            if place == stretch.last {
                row.departure = 0;
                row.flags &= !(DEPARTURE | NO_BOARDING);
            } else {
                while categories.next_if(|span| span.to <= place).is_some() {}
                row.category = categories.peek().map_or(0, |span| span.given);
            }
            rows.push(row);
        }
        Ok(())
    }

    /// The stretch of a service on a day: from the first leg that is operated to the last. No day has two.
    pub(crate) fn stretch_of(&self, service: &Service, day: u32) -> Option<Stretch> {
        let mut operated = service.days.iter().filter(|span| self.field_runs(span.given, day) == Some(true));
        let first = operated.next()?;
        let last = operated.next_back().unwrap_or(first);
        Some(Stretch { first: first.from, last: last.to })
    }
}

/// "The first time applies when both classes are 0, 1 or 2."
pub(crate) fn time_between([first, second]: [u32; 2], arriving: u32, departing: u32) -> u32 {
    if arriving <= FIRST_TIME_CLASS && departing <= FIRST_TIME_CLASS {
        first
    } else {
        second
    }
}

impl Service {
    fn from_words(record: &[u32]) -> Service {
        let [calls, categories, days, others] = [record[6], record[7], record[8], record[9]];
        let (call_words, rest) = record[SERVICE_WORDS..].split_at(CALL_WORDS * calls as usize);
        let (category_words, rest) = rest.split_at(CATEGORY_WORDS * categories as usize);
        let (day_words, other_words) = rest.split_at(DAYS_WORDS * days as usize);
        let span = |words: &[u32]| Span { given: words[0], from: words[1], to: words[2] };
        let written = Written {
            categories: records(category_words, categories, CATEGORY_WORDS).map(span).collect(),
            days: records(day_words, days, DAYS_WORDS).map(span).collect(),
            others: records(other_words, others, EXTRA_WORDS).map(|words| (words[0], span(&words[1..]))).collect(),
        };
        Service {
            number: record[1],
            administration: [record[2], record[3]],
            runs: match record[11] {
                KIND_T => Runs::Frequency { running_time: record[4], density: record[5] },
                _ => Runs::Repeats { repeats: record[4], offset: record[5] },
            },
            calls: records(call_words, calls, CALL_WORDS).map(Call::from_words).collect(),
            categories: by_leg(&written.categories),
            days: by_leg(&written.days),
            written,
        }
    }
}

/// In the order of the legs that they cover.
fn by_leg(spans: &[Span]) -> Vec<Span> {
    let mut sorted = spans.to_vec();
    sorted.sort_unstable_by_key(|span| span.from);
    sorted
}

impl Call {
    fn from_words(words: &[u32]) -> Call {
        Call {
            stop: words[0],
            arrival: words[1],
            departure: words[2],
            flags: words[3],
            number: words[4],
            administration: [words[5], words[6]],
        }
    }
}
