//! Document 02, No. 9: departure boards.

use super::ask::{table, Table};
use super::index::index_of;
use super::runs::Runs;
use crate::layout::{DEPARTURE, NO_BOARDING, ROW_DEPARTURE_AT, ROW_FLAGS_AT, ROW_STOP_AT};

/// "a row is these four words": time, service, repeat and place in the route, "service and place from 0".
pub const BOARD_ROW_WORDS: usize = 4;

/// "For a stop, a date and two times in minutes".
#[derive(Clone, Copy, Debug, PartialEq, Eq)]
pub struct BoardQuestion {
    pub stop: u32,
    pub date: [u32; 3],
    pub first: u32,
    pub last: u32,
}

/// The answer of a board: its rows, or a refusal's number; 29 has the words needed.
#[derive(Clone, Copy, Debug, PartialEq, Eq)]
pub enum Boarded {
    Rows(usize),
    Refused { number: u32, needed: usize },
}

/// A departure, in the order of a board: "by time, then service, repeat and place in the route".
#[derive(Clone, Copy, Debug, PartialEq, Eq, PartialOrd, Ord)]
pub struct Departure {
    pub time: u32,
    pub service: u32,
    pub repeat: u32,
    pub place: u32,
}

impl Departure {
    pub fn words(self) -> [u32; BOARD_ROW_WORDS] {
        [self.time, self.service, self.repeat, self.place]
    }
}

/// "Refusals, after 21, 22, 23: 27, 43 words that are not this table's index, 29 list too short, with the words needed; the list then stays."
pub fn board(words: &[u32], index: &[u32], asked: &BoardQuestion, list: &mut [u32]) -> Boarded {
    listed(departures(words, Some(index), asked), list)
}

/// A board's departures in the list that is lent, or its refusal.
pub fn listed(departures: Result<Vec<Departure>, u32>, list: &mut [u32]) -> Boarded {
    let rows = match departures {
        Ok(rows) => rows,
        Err(number) => return Boarded::Refused { number, needed: 0 },
    };
    let needed = BOARD_ROW_WORDS * rows.len();
    match list.get_mut(..needed) {
        Some(front) => {
            for (row, departure) in front.chunks_exact_mut(BOARD_ROW_WORDS).zip(&rows) {
                row.copy_from_slice(&departure.words());
            }
        }
        None => return Boarded::Refused { number: 29, needed },
    }
    Boarded::Rows(rows.len())
}

/// The departures of a board, and its refusals but 29; without an index there is no 43.
pub fn departures(words: &[u32], index: Option<&[u32]>, asked: &BoardQuestion) -> Result<Vec<Departure>, u32> {
    let table = table(words).ok_or(21_u32)?;
    let [d, m, y] = asked.date;
    let day = table.day_of(d, m, y)?;
    if !table.stop_known(asked.stop) {
        return Err(27);
    }
    if index.map_or(false, |index| index != index_of(&table)) {
        return Err(43);
    }
    let services = 0..table.services.len() as u32;
    let mut found: Vec<Departure> = services.flat_map(|service| of_service(&table, service, day, asked)).collect();
    found.sort_unstable();
    Ok(found)
}

/// The departures of a service's runs. A run's rows are those of its run 0, with each time as many minutes later as the run is late. `departures_by_walks` of the tests walks
/// every run instead.
fn of_service(table: &Table<'_>, service: u32, day: u32, asked: &BoardQuestion) -> Vec<Departure> {
    let mut found = Vec::new();
    // "a run whose walk is refused gives none"
    let stretch = match table.walked(service, 0, day) {
        Ok(Some(stretch)) => stretch,
        _ => return found,
    };
    let runs = table.services[service as usize].runs;
    for (place, row) in (stretch.first as u32..).zip(&stretch.rows) {
        if departs(row, asked.stop) {
            let within = runs_within(runs, row[ROW_DEPARTURE_AT], asked);
            found.extend(within.map(|(time, repeat)| Departure { time, service, repeat, place }));
        }
    }
    found
}

/// The runs that depart within the span, with their times, where run 0 departs at this one. Runs come in the order in which they are late, so that those after the last time need
/// not be looked at.
pub(super) fn runs_within(runs: Runs, departure: u32, asked: &BoardQuestion) -> impl Iterator<Item = (u32, u32)> {
    // "the time is not below the first nor above the second"
    let BoardQuestion { first, last, .. } = *asked;
    let times = (0..).map_while(move |repeat| runs.late(repeat).map(|late| (departure + late, repeat)));
    times.take_while(move |(time, _)| *time <= last).filter(move |(time, _)| *time >= first)
}

/// Whether a row of a walk is a departure from a stop "where boarding is allowed". The last row of a stretch has none.
pub fn departs(row: &[u32], stop: u32) -> bool {
    row[ROW_STOP_AT] == stop && row[ROW_FLAGS_AT] & DEPARTURE != 0 && row[ROW_FLAGS_AT] & NO_BOARDING == 0
}
