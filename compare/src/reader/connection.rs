//! Document 02, No. 12: whether a proposed connection holds.

use super::ask::{table, Stretch, Table};
use crate::layout::{
    NO_ALIGHTING, NO_BOARDING, ROW_ARRIVAL_AT, ROW_CATEGORY_AT, ROW_DEPARTURE_AT, ROW_FLAGS_AT, ROW_STOP_AT, ROW_WORDS,
};

/// Words of a part: "service, repeat, date, boarding call, alighting call".
pub const PART_WORDS: usize = 7;

/// "It proposes 1 to 10 parts".
pub const MOST_PARTS: usize = 10;

/// Whether it holds; else "number of the first bad part", and why.
#[derive(Clone, Copy, Debug, PartialEq, Eq)]
pub enum Connected {
    Holds,
    Refused { number: u32, part: u32 },
}

/// The rows of a part that passed its own checks.
struct Part {
    day: u32,
    boards: [u32; ROW_WORDS],
    /// The row before the one of the alighting call: its leaving leg is the leg arriving there.
    before: [u32; ROW_WORDS],
    alights: [u32; ROW_WORDS],
}

/// "Refusals: number of the first bad part and, in this order, 21, 46 not 1 to 10 whole parts, then per part .. (.. parts count from 1; 21 and 46 name 0)".
pub fn connection(words: &[u32], parts: &[u32]) -> Connected {
    let table = match table(words) {
        Some(table) => table,
        None => return Connected::Refused { number: 21, part: 0 },
    };
    let count = parts.len() / PART_WORDS;
    if parts.len() % PART_WORDS != 0 || !(1..=MOST_PARTS).contains(&count) {
        return Connected::Refused { number: 46, part: 0 };
    }
    let mut earlier: Option<Part> = None;
    for (part, asked) in (1..).zip(parts.chunks_exact(PART_WORDS)) {
        let taken = match &earlier {
            None => own(&table, asked),
            // "these three name the later part"
            Some(earlier) => own(&table, asked).and_then(|later| change(&table, earlier, &later).map(|()| later)),
        };
        match taken {
            Ok(taken) => earlier = Some(taken),
            Err(number) => return Connected::Refused { number, part },
        }
    }
    Connected::Holds
}

/// "the walk's own refusals except 29, 47 not among the rows, 48 order or permission"
fn own(table: &Table<'_>, asked: &[u32]) -> Result<Part, u32> {
    let [service, repeat, d, m, y, boarding, alighting] = match *asked {
        [a, b, c, d, e, f, g] => [a, b, c, d, e, f, g],
        _ => unreachable!("a part has seven words"),
    };
    let day = table.day_of(d, m, y)?;
    // "each part lies in that day's rows": without rows it does not
    let stretch = table.walked(service, repeat, day)?.ok_or(47_u32)?;
    let (boards, alights) = (row(&stretch, boarding).ok_or(47_u32)?, row(&stretch, alighting).ok_or(47_u32)?);
    // "boards before it alights, boarding and alighting are allowed"
    if boarding >= alighting || boards[ROW_FLAGS_AT] & NO_BOARDING != 0 || alights[ROW_FLAGS_AT] & NO_ALIGHTING != 0 {
        return Err(48);
    }
    let before = row(&stretch, alighting - 1).ok_or(47_u32)?;
    Ok(Part { day, boards, before, alights })
}

/// The row of a call, "calls counted from 0 along the route".
fn row(stretch: &Stretch, call: u32) -> Option<[u32; ROW_WORDS]> {
    let at = (call as usize).checked_sub(stretch.first)?;
    stretch.rows.get(at).copied()
}

/// "49 other stop, 38, 50 wait too short": "the next part boards at the same stop, and the wait, over date and minutes together, is at least the interchange time between
/// the categories of the leg arriving and the leg departing".
fn change(table: &Table<'_>, earlier: &Part, later: &Part) -> Result<(), u32> {
    let stop = later.boards[ROW_STOP_AT];
    if earlier.alights[ROW_STOP_AT] != stop {
        return Err(49);
    }
    let arriving = table.class_of(earlier.before[ROW_CATEGORY_AT]).ok_or(38_u32)?;
    let departing = table.class_of(later.boards[ROW_CATEGORY_AT]).ok_or(38_u32)?;
    let days = i64::from(later.day) - i64::from(earlier.day);
    let wait = 24 * 60 * days + i64::from(later.boards[ROW_DEPARTURE_AT]) - i64::from(earlier.alights[ROW_ARRIVAL_AT]);
    if wait < i64::from(table.minutes(stop, arriving, departing)) {
        return Err(50);
    }
    Ok(())
}

/// The runs of a table, for a generator that looks for connections that hold.
pub struct Courses<'a>(Table<'a>);

/// The rows of a run on a day, and the route index of the first.
pub struct Course {
    pub first: usize,
    pub rows: Vec<[u32; ROW_WORDS]>,
}

impl<'a> Courses<'a> {
    pub fn of(words: &'a [u32]) -> Option<Courses<'a>> {
        table(words).map(Courses)
    }

    pub fn services(&self) -> usize {
        self.0.services.len()
    }

    /// The rows on a day of the period; `None` if the walk is refused or not running.
    pub fn course(&self, service: usize, run: u32, day: u32) -> Option<Course> {
        match self.0.walked(service as u32, run, day) {
            Ok(Some(Stretch { first, rows })) => Some(Course { first, rows }),
            _ => None,
        }
    }

    /// The minutes that a run is late; `None` if there is no such run.
    pub fn late(&self, service: usize, run: u32) -> Option<u32> {
        self.0.services[service].runs.late(run)
    }

    /// The minutes to change at a stop between two categories that are listed.
    pub fn minutes(&self, stop: u32, arriving: u32, departing: u32) -> Option<u32> {
        Some(self.0.minutes(stop, self.0.class_of(arriving)?, self.0.class_of(departing)?))
    }
}
