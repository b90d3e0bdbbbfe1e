//! One service of FPLAN as its lines state it, its range ends (5.3.1), and the service's own checks 14 to 19.

use std::collections::HashMap;

use super::bits::{runs_on, BitWords};
use super::fields::{Detail, RangeEnd, Time};
use super::runs::Runs;

/// A schedule line. Number and administration are `None` where they are blank.
#[derive(Clone, Copy, Debug)]
pub struct Call {
    pub line: u32,
    pub stop: u32,
    pub arrival: Time,
    pub departure: Time,
    pub number: Option<u32>,
    pub administration: Option<[u32; 2]>,
}

/// A *from* or *to* with its detail. Beside no stop number the detail is not read and stands as `Plain`.
#[derive(Clone, Copy, Debug)]
pub struct End {
    pub place: RangeEnd,
    pub detail: Detail,
}

/// What a *G or *A line gives to its range.
#[derive(Clone, Copy, Debug)]
pub enum Given {
    Category(u32),
    Days { bitfield: u32 },
    Other { code: u32, bitfield: u32 },
}

/// A *G or *A line.
#[derive(Clone, Copy, Debug)]
pub struct Range {
    pub line: u32,
    pub given: Given,
    pub from: End,
    pub to: End,
}

/// A *Z or *T line with the lines that follow it, each list by line.
#[derive(Clone, Debug)]
pub struct Draft {
    pub line: u32,
    pub number: u32,
    pub administration: [u32; 2],
    pub runs: Runs,
    pub calls: Vec<Call>,
    pub ranges: Vec<Range>,
}

/// What a range gives, over route indexes.
#[derive(Clone, Copy, Debug)]
pub struct Placed {
    pub given: Given,
    pub from: usize,
    pub to: usize,
}

impl Placed {
    /// The legs between: leg i leaves call i.
    fn covers(&self, leg: usize) -> bool {
        self.from <= leg && leg < self.to
    }
}

/// A service that passed its checks.
#[derive(Clone, Debug)]
pub struct Service {
    pub draft: Draft,
    pub ranges: Vec<Placed>,
}

fn minutes(time: Time) -> Option<u32> {
    match time {
        Time::Stated { minutes, .. } => Some(minutes),
        _ => None,
    }
}

/// The route indexes where a stop is called at, in order: its appearances.
fn appearances(calls: &[Call], stop: u32) -> Vec<usize> {
    (0..calls.len()).filter(|i| calls[*i].stop == stop).collect()
}

/// "#" and digits is a "route index from 0".
fn indexed(calls: &[Call], index: u32) -> Option<usize> {
    let index = index as usize;
    if index < calls.len() {
        Some(index)
    } else {
        None
    }
}

/// A *from*: blank is the first call; for a stop "blank, the first appearance"; "#k", "that appearance, from 0 at
/// the route's start"; "a time, the first appearance with that departure". Open point: an absent time is not found.
pub fn from_index(calls: &[Call], from: End) -> Option<usize> {
    let stop = match from.place {
        RangeEnd::Outer => return indexed(calls, 0),
        RangeEnd::Index(index) => return indexed(calls, index),
        RangeEnd::Stop(stop) => stop,
        RangeEnd::Broken => return None,
    };
    let mut seen = appearances(calls, stop).into_iter();
    match from.detail {
        Detail::Plain => seen.next(),
        Detail::Nth(nth) => seen.nth(nth as usize),
        Detail::Timed(at) => seen.find(|i| minutes(calls[*i].departure) == Some(at)),
        Detail::Broken => None,
    }
}

/// A *to*: blank is the last call; for a stop blank is "the last" appearance, "#k" counts "from 0 at the route's
/// start" here too, a time is "the last with that arrival".
pub fn to_index(calls: &[Call], to: End) -> Option<usize> {
    let stop = match to.place {
        RangeEnd::Outer => return calls.len().checked_sub(1),
        RangeEnd::Index(index) => return indexed(calls, index),
        RangeEnd::Stop(stop) => stop,
        RangeEnd::Broken => return None,
    };
    let mut seen = appearances(calls, stop).into_iter();
    match to.detail {
        Detail::Plain => seen.next_back(),
        Detail::Nth(nth) => seen.nth(nth as usize),
        Detail::Timed(at) => seen.rfind(|i| minutes(calls[*i].arrival) == Some(at)),
        Detail::Broken => None,
    }
}

/// 16: "range end not found, or from and to in wrong order". "*G and operating-day ranges need from < to ...; other
/// *A need from ≤ to."
pub fn place(calls: &[Call], range: &Range) -> Option<Placed> {
    let from = from_index(calls, range.from)?;
    let to = to_index(calls, range.to)?;
    let in_order = match range.given {
        Given::Category(_) | Given::Days { .. } => from < to,
        Given::Other { .. } => from <= to,
    };
    if in_order {
        Some(Placed { given: range.given, from, to })
    } else {
        None
    }
}

/// 15: the line of the first call with "no departure at the first call, no arrival at the last, either missing
/// between; or a stated time below the one stated before". Open point: all stated times of the service are one
/// sequence, arrival before departure.
fn bad_times(calls: &[Call]) -> Option<u32> {
    let mut before = 0;
    for (i, call) in calls.iter().enumerate() {
        let (arrival, departure) = (minutes(call.arrival), minutes(call.departure));
        let arrival_needed = i > 0;
        let departure_needed = i + 1 < calls.len();
        if (arrival_needed && arrival.is_none()) || (departure_needed && departure.is_none()) {
            return Some(call.line);
        }
        for stated in [arrival, departure].into_iter().flatten() {
            if stated < before {
                return Some(call.line);
            }
            before = stated;
        }
    }
    None
}

fn covered_once<'a>(leg: usize, mut ranges: impl Iterator<Item = &'a Placed>) -> bool {
    let first = ranges.find(|range| range.covers(leg));
    first.is_some() && !ranges.any(|range| range.covers(leg))
}

fn is_category(range: &&Placed) -> bool {
    matches!(range.given, Given::Category(_))
}

fn is_days(range: &&Placed) -> bool {
    matches!(range.given, Given::Days { .. })
}

/// The separate stretches that the operated legs form.
pub fn stretches(operated: &[bool]) -> usize {
    let starts = |leg: usize| operated[leg] && (leg == 0 || !operated[leg - 1]);
    (0..operated.len()).filter(|leg| starts(*leg)).count()
}

/// The operating days of the range over a leg; `None` stands for 000000, daily.
fn days_of_leg<'a>(leg: usize, ranges: &[Placed], bitfields: &'a HashMap<u32, BitWords>) -> Option<&'a BitWords> {
    ranges.iter().find_map(|range| match range.given {
        Given::Days { bitfield } if range.covers(leg) => bitfields.get(&bitfield),
        _ => None,
    })
}

/// 19: "on some day the operated legs form two or more separate stretches", day by day over the period's n days.
fn torn(legs: usize, ranges: &[Placed], n: u32, bitfields: &HashMap<u32, BitWords>) -> bool {
    let days: Vec<Option<&BitWords>> = (0..legs).map(|leg| days_of_leg(leg, ranges, bitfields)).collect();
    (0..n).any(|d| {
        let operated: Vec<bool> = days.iter().map(|words| words.map_or(true, |words| runs_on(words, d))).collect();
        stretches(&operated) >= 2
    })
}

/// "For a service 14, 15, 16 (each by line), 17, 18, 19." The error is the number and its line; "the *Z line of 14 and 17 to 19
/// .. may be a *T's" (document 02, No. 8). The bit fields are
/// those of the same delivery.
pub fn checked(draft: Draft, n: u32, bitfields: &HashMap<u32, BitWords>) -> Result<Service, (u32, u32)> {
    // 14: "under two calls"
    if draft.calls.len() < 2 {
        return Err((14, draft.line));
    }
    if let Some(line) = bad_times(&draft.calls) {
        return Err((15, line));
    }
    let mut ranges = Vec::with_capacity(draft.ranges.len());
    for range in &draft.ranges {
        ranges.push(place(&draft.calls, range).ok_or((16, range.line))?);
    }
    let legs = draft.calls.len() - 1;
    // 17 / 18: "a leg not covered by exactly one *G / *A VE"
    if !(0..legs).all(|leg| covered_once(leg, ranges.iter().filter(is_category))) {
        return Err((17, draft.line));
    }
    if !(0..legs).all(|leg| covered_once(leg, ranges.iter().filter(is_days))) {
        return Err((18, draft.line));
    }
    if torn(legs, &ranges, n, bitfields) {
        return Err((19, draft.line));
    }
    Ok(Service { draft, ranges })
}
