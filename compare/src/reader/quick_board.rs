//! A departure board by words that are taken as the table's index, whatever they are: what they say of the calls at the stop, and of the mark (docs/DECISIONS.md, D120, D129 and
//! D152).

use super::ask::{headed, Over, Service, Table};
use super::board::{departs, runs_within, BoardQuestion, Departure};
use super::index::look_ups_of;
use super::service::stretches;
use crate::layout::{FIRST_SERVICE_AT, NO_BOARDING, ROW_DEPARTURE_AT, SERVICES_AT, STOP_NUMBER_AT};

/// Words of a call in an index.
const ENTRY_WORDS: usize = 4;

/// The departures of a quick board, and its refusals but 29. `None` where the papers do not say the answer: the words are not this table's in what finds records by their
/// numbers, or hold calls that no index has.
pub fn quick_departures(words: &[u32], index: &[u32], asked: &BoardQuestion) -> Option<Result<Vec<Departure>, u32>> {
    let table = match headed(words) {
        Some(table) => table,
        None => return Some(Err(21)),
    };
    let beside = match Beside::of(&table, index) {
        Some(beside) => beside,
        None => return Some(Err(43)),
    };
    if !beside.finds_as_own() {
        return None;
    }
    let [d, m, y] = asked.date;
    let day = match table.day_of(d, m, y) {
        Ok(day) => day,
        Err(number) => return Some(Err(number)),
    };
    if !table.stop_known(asked.stop) {
        return Some(Err(27));
    }
    let mut found = Vec::new();
    for [service, place] in beside.calls_at(asked.stop)? {
        let record = match beside.record(service)? {
            Some(record) => record,
            None => continue,
        };
        if let Some(departure) = beside.departure(&record, place, day, asked.stop) {
            let within = runs_within(record.runs, departure, asked);
            found.extend(within.map(|(time, repeat)| Departure { time, service, repeat, place }));
        }
    }
    found.sort_unstable();
    Some(Ok(found))
}

/// The parts of the words beside a table.
struct Beside<'a> {
    table: &'a Table<'a>,
    look_ups: &'a [u32],
    /// The place of each service's record.
    places: &'a [u32],
    /// The last call at each stop.
    last: &'a [u32],
    calls: &'a [u32],
    /// The last word.
    mark: u32,
}

/// So many words from the front, and the rest.
fn front(words: &[u32], count: usize) -> Option<(&[u32], &[u32])> {
    Some((words.get(..count)?, words.get(count..)?))
}

impl<'a> Beside<'a> {
    /// `None` where 43 is told by the length (D119): "at least the look-ups' words and one for each stop", whole entries of four words behind them, and the mark.
    fn of(table: &'a Table<'a>, index: &'a [u32]) -> Option<Beside<'a>> {
        let (mark, rest) = index.split_last()?;
        let (look_ups, rest) = front(rest, look_ups_of(table).len())?;
        let (places, rest) = front(rest, table.words[SERVICES_AT] as usize)?;
        let (last, calls) = front(rest, table.stops() as usize)?;
        Some(Beside { table, look_ups, places, last, calls, mark: *mark }).filter(|_| calls.len() % ENTRY_WORDS == 0)
    }

    fn finds_as_own(&self) -> bool {
        self.look_ups == look_ups_of(self.table)
    }

    /// Service and place in the route of each call at a stop: "every place of the stop section that has it" (D127), from its last call on. `None` where a call is not before
    /// the one that names it, its service is none or has its record elsewhere, or it comes twice.
    fn calls_at(&self, stop: u32) -> Option<Vec<[u32; 2]>> {
        let entries: Vec<&[u32]> = self.calls.chunks_exact(ENTRY_WORDS).collect();
        let mut found = Vec::new();
        for (_, last) in self.table.stop_records().zip(self.last).filter(|(record, _)| record[STOP_NUMBER_AT] == stop) {
            let (mut call, mut bound) = (*last as usize, entries.len() + 1);
            while call != 0 {
                let entry = entries.get(call - 1).filter(|_| call < bound)?;
                let (before, service, record, place) = (entry[0] as usize, entry[1], entry[2], entry[3]);
                if self.places.get(service as usize) != Some(&record) {
                    return None;
                }
                found.push([service, place]);
                (bound, call) = (call, before);
            }
        }
        found.sort_unstable();
        Some(found).filter(|found| found.windows(2).all(|pair| pair[0] != pair[1]))
    }

    /// The record that the place word of a service names, if its sizes and its opening line are sound; `None` if that is no place of a service.
    fn record(&self, service: u32) -> Option<Option<Service>> {
        let at = self.places[service as usize];
        Some(self.table.sized_at(at as usize)).filter(|_| at >= self.table.words[FIRST_SERVICE_AT])
    }

    /// When run 0 leaves a place of its route, with boarding allowed at the stop asked for; `None` if it does not. The mark is trusted where the ranges follow each other.
    fn departure(&self, record: &Service, place: u32, day: u32, stop: u32) -> Option<u32> {
        let last = record.calls.len() as u32 - 1;
        let follow = follow_each_other(&record.days, last) && follow_each_other(&record.categories, last);
        if self.mark == 1 && follow && record.has_sound_others() {
            self.by_mark(record, place as usize, day, stop)
        } else {
            self.by_walk(record, place as usize, day, stop)
        }
    }

    /// D152: by the operating days and the one call alone. Every range's bit field is known, the place is in the day's only stretch and not its end, and the call there is
    /// sound. That its departure is stated the mark says.
    fn by_mark(&self, record: &Service, place: usize, day: u32, stop: u32) -> Option<u32> {
        let operated = self.table.operated(record, day).ok()?;
        let call = record.calls.get(place).filter(|call| call.is_sound(self.table.stops()))?;
        let leaves = operated.get(place) == Some(&true) && stretches(&operated) == 1;
        let boards = || self.table.stop_at(call.place) == stop && call.flags & NO_BOARDING == 0;
        Some(call.departure).filter(|_| leaves && boards())
    }

    /// Without the mark: the record is sound, and its walk on that day is not refused.
    fn by_walk(&self, record: &Service, place: usize, day: u32, stop: u32) -> Option<u32> {
        let sound = Some(record).filter(|record| self.table.is_sound(record))?;
        let stretch = self.table.walked_along(sound, 0, day).ok()??;
        let row = stretch.rows.get(place.checked_sub(stretch.first)?)?;
        Some(row[ROW_DEPARTURE_AT]).filter(|_| departs(row, stop))
    }
}

/// Whether the first range begins at call 0, each other where the one before ends, each ends later than it begins, and the last ends at the last call.
fn follow_each_other(ranges: &[Over], last: u32) -> bool {
    let mut end = 0;
    for range in ranges {
        if range.from != end || range.to <= end {
            return false;
        }
        end = range.to;
    }
    end == last
}
