//! What leaves a stop from a moment on, over the dates on which runs start.

use std::iter::FusedIterator;
use std::vec::IntoIter;

use super::{Departure, Minutes, Moment, Stop};
use crate::date::Date;

const DAY: u64 = 24 * 60;

/// The minutes that are looked at first; each further look takes twice as many.
const FIRST_LOOK: u64 = 60;

/// The departures from a stop from a moment on, as [`Stop::departures`] gives them.
#[derive(Clone, Debug)]
#[must_use]
pub struct Departures<'t> {
    stop: Stop<'t>,
    /// What was looked at already, and not yet given.
    ready: IntoIter<Departure<'t>>,
    /// The first minute that was not looked at, counted from 01.01.1900, as the others are.
    next: u64,
    /// The minutes of the next look.
    look: u64,
}

impl<'t> Departures<'t> {
    pub(super) fn new(stop: Stop<'t>, from: Moment) -> Departures<'t> {
        let first = Moment::new(stop.scope.period().first, Minutes::default());
        Departures { stop, ready: Vec::new().into_iter(), next: from.count().max(first.count()), look: FIRST_LOOK }
    }

    /// The last minute in which anything can leave: that of the latest time of a run that starts on the last day.
    fn end(&self) -> u64 {
        Moment::new(self.stop.scope.period().last, self.stop.scope.timetable.latest()).count()
    }

    /// What leaves between two minutes, both looked at: on each day's board that has such times.
    fn between(&self, first: u64, last: u64) -> Vec<Departure<'t>> {
        let (scope, latest) = (self.stop.scope, u64::from(self.stop.scope.timetable.latest().count()));
        let mut found = Vec::new();
        for number in first.saturating_sub(latest) / DAY..=last / DAY {
            let day = u32::try_from(number).ok().and_then(Date::from_day_number).and_then(|date| scope.day(date));
            if let Some(day) = day {
                // Times after the latest need not fit a word.
                let time =
                    |minute: u64| Minutes::from(u32::try_from(minute.saturating_sub(number * DAY)).unwrap_or(u32::MAX));
                found.extend(self.stop.board(day, time(first)..=time(last)));
            }
        }
        found.sort_by_key(|departure| (departure.moment(), departure.order()));
        found
    }
}

impl<'t> Iterator for Departures<'t> {
    type Item = Departure<'t>;

    fn next(&mut self) -> Option<Departure<'t>> {
        loop {
            if let Some(departure) = self.ready.next() {
                return Some(departure);
            }
            if self.next > self.end() {
                return None;
            }
            let last = self.end().min(self.next + (self.look - 1));
            self.ready = self.between(self.next, last).into_iter();
            self.next = last + 1;
            self.look *= 2;
        }
    }
}

impl FusedIterator for Departures<'_> {}
