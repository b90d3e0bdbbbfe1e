//! Calls, and range ends on a route.

use crate::fields::{End, Time, Which};

/// A schedule line, with the number and the administration that hold from it on.
#[derive(Clone, Copy, Debug)]
pub struct Call {
    pub line: u32,
    pub stop: u32,
    /// The stop's place in BAHNHOF, counted in records from 0.
    pub place: u32,
    pub arrival: Option<Time>,
    pub departure: Option<Time>,
    pub number: u32,
    pub administration: [u32; 2],
}

/// "a *from* is blank (first call), ..; for a stop blank, the first appearance; a time, the first appearance with that
/// departure"
pub fn from_index(end: End, calls: &[Call]) -> Option<usize> {
    match end {
        End::Outer => Some(0),
        End::Index(index) => index_on(calls, index),
        End::Stop(stop, Which::Outer) => calls.iter().position(|call| call.stop == stop),
        End::Stop(stop, Which::Appearance(k)) => appearance(calls, stop, k),
        End::Stop(stop, Which::At(minutes)) => {
            calls.iter().position(|call| call.stop == stop && is_at(call.departure, minutes))
        }
    }
}

/// The same for *to*: the last call, the last appearance, the last with that arrival.
pub fn to_index(end: End, calls: &[Call]) -> Option<usize> {
    match end {
        End::Outer => calls.len().checked_sub(1),
        End::Index(index) => index_on(calls, index),
        End::Stop(stop, Which::Outer) => calls.iter().rposition(|call| call.stop == stop),
        End::Stop(stop, Which::Appearance(k)) => appearance(calls, stop, k),
        End::Stop(stop, Which::At(minutes)) => {
            calls.iter().rposition(|call| call.stop == stop && is_at(call.arrival, minutes))
        }
    }
}

fn index_on(calls: &[Call], index: u32) -> Option<usize> {
    Some(index as usize).filter(|index| *index < calls.len())
}

/// "that appearance, from 0 at the route's start"
fn appearance(calls: &[Call], stop: u32, k: u32) -> Option<usize> {
    let mut of_stop = calls.iter().enumerate().filter(|(_, call)| call.stop == stop);
    of_stop.nth(k as usize).map(|(index, _)| index)
}

/// "minutes only, sign not compared"
fn is_at(time: Option<Time>, minutes: u32) -> bool {
    time.map_or(false, |time| time.minutes == minutes)
}
