//! Proposed connections (document 02, No. 12).

use crate::table::{NO_ALIGHTING, NO_BOARDING};
use crate::timetable::{time_between, Day, Number, Service, Timetable};

/// The most parts of a connection.
const MOST_PARTS: usize = 10;

/// A part of a connection.
#[derive(Clone, Copy, Debug, PartialEq, Eq)]
pub struct Part {
    /// From 0.
    pub service: u32,
    /// The run.
    pub repeat: u32,
    /// On which it starts.
    pub date: Day,
    /// The call where one boards, from 0 along the route.
    pub boards: u32,
    /// The call where one alights.
    pub alights: u32,
}

/// Why a connection does not hold: a refusal's number and the first bad part, from 1.
#[derive(Clone, Copy, Debug, PartialEq, Eq)]
pub struct Bad {
    /// 22 to 25, 38, 46 to 50.
    pub number: Number,
    /// 0 beside 46.
    pub part: u32,
}

/// A part that holds by itself.
struct Ride<'a> {
    service: &'a Service,
    day: u32,
    late: u32,
    boards: usize,
    alights: usize,
}

impl Timetable {
    /// Whether a connection holds.
    pub fn check_connection(&self, parts: &[Part]) -> Result<(), Bad> {
        if parts.is_empty() || parts.len() > MOST_PARTS {
            return Err(Bad { number: 46, part: 0 });
        }
        let mut before: Option<Ride<'_>> = None;
        for (part, number) in parts.iter().zip(1..) {
            let bad = |refusal| Bad { number: refusal, part: number };
            let ride = self.ride(part).map_err(bad)?;
            if let Some(before) = &before {
                self.check_change(before, &ride).map_err(bad)?;
            }
            before = Some(ride);
        }
        Ok(())
    }

    /// 22 to 25, 47, 48.
    fn ride(&self, part: &Part) -> Result<Ride<'_>, Number> {
        let day = self.day_of(part.date)?;
        let service = self.services.get(part.service as usize).ok_or(24_u32)?;
        let late = service.runs.late(part.repeat).ok_or(25_u32)?;
        let stretch = self.stretch_of(service, day).ok_or(47_u32)?;
        let (boards, alights) = (part.boards as usize, part.alights as usize);
        let rows = stretch.first..=stretch.last;
        if !rows.contains(&part.boards) || !rows.contains(&part.alights) {
            return Err(47);
        }
        let is_barred = |call: usize, flag: u32| service.calls[call].flags & flag != 0;
        if boards >= alights || is_barred(boards, NO_BOARDING) || is_barred(alights, NO_ALIGHTING) {
            return Err(48);
        }
        Ok(Ride { service, day, late, boards, alights })
    }

    /// 49, 38, 50.
    fn check_change(&self, before: &Ride<'_>, after: &Ride<'_>) -> Result<(), Number> {
        let (alights, boards) = (&before.service.calls[before.alights], &after.service.calls[after.boards]);
        if alights.stop != boards.stop {
            return Err(49);
        }
        let arriving = self.class_of(before.service.category_of(before.alights - 1))?;
        let departing = self.class_of(after.service.category_of(after.boards))?;
        let time = |day: u32, minutes: u32| 1_440 * i64::from(day) + i64::from(minutes);
        let wait = time(after.day, boards.departure + after.late) - time(before.day, alights.arrival + before.late);
        let times = self.times_of(self.stops[boards.stop as usize].number);
        if wait < i64::from(time_between(times, arriving, departing)) {
            return Err(50);
        }
        Ok(())
    }
}

impl Service {
    /// The category of a leg.
    fn category_of(&self, leg: usize) -> u32 {
        let leg = leg as u32;
        self.categories.iter().find(|span| leg < span.to).map_or(0, |span| span.given)
    }
}
