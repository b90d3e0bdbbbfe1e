//! A service: its lines gathered, and its own checks, 14 to 19.

use crate::bits::Bits;
use crate::fields::End;
use crate::refusal::{number, Offence};
use crate::route::{from_index, to_index, Call};
use crate::sections::BitFields;

/// What a *Z or *T line says.
#[derive(Clone, Copy, Debug)]
pub struct Opening {
    pub line: u32,
    pub number: u32,
    pub administration: [u32; 2],
    /// Of a *T the running time in minutes.
    pub repeats: u32,
    /// Of a *T the density in seconds.
    pub offset: u32,
    /// "its kind (0 for *Z, 1 for *T)" (document 02, No. 8)
    pub kind: u32,
}

/// A *G or *A line: what holds over the range, and its ends as they are written.
#[derive(Clone, Copy, Debug)]
pub struct Range<T> {
    pub line: u32,
    pub given: T,
    pub from: End,
    pub to: End,
}

/// The code of another *A, and its bit field.
#[derive(Clone, Copy, Debug)]
pub struct Attribute {
    pub code: u32,
    pub field: u32,
}

/// The lines of a service, each sort in its own order.
#[derive(Debug)]
pub struct Service {
    pub opening: Opening,
    pub calls: Vec<Call>,
    /// *G: the category.
    pub categories: Vec<Range<u32>>,
    /// *A VE: the bit field.
    pub days: Vec<Range<u32>>,
    pub others: Vec<Range<Attribute>>,
}

/// A range found on its route: `from` and `to` are route indexes.
#[derive(Clone, Copy, Debug)]
pub struct Found<T> {
    pub given: T,
    pub from: usize,
    pub to: usize,
}

/// All ranges of a service, found.
#[derive(Debug)]
pub struct Ranges {
    pub categories: Vec<Found<u32>>,
    pub days: Vec<Found<u32>>,
    pub others: Vec<Found<Attribute>>,
}

impl Service {
    pub fn new(opening: Opening) -> Service {
        Service { opening, calls: Vec::new(), categories: Vec::new(), days: Vec::new(), others: Vec::new() }
    }

    /// The number and the administration that hold behind the calls so far.
    pub fn holding(&self) -> (u32, [u32; 2]) {
        match self.calls.last() {
            Some(call) => (call.number, call.administration),
            None => (self.opening.number, self.opening.administration),
        }
    }

    /// "For a service 14, 15, 16 (each by line), 17, 18, 19." Gives its ranges.
    pub fn check(&self, fields: &BitFields) -> Result<Ranges, Offence> {
        let service = |number| Offence::at(self.opening.line, number);
        if self.calls.len() < 2 {
            return Err(service(number::FEW_CALLS));
        }
        if let Some(call) = wrong_call(&self.calls) {
            return Err(Offence::at(call.line, number::TIMES));
        }
        let ranges = self.find_ranges()?;
        let last = self.calls.len() - 1;
        if !cover_once(&by_leg(&ranges.categories), last) {
            return Err(service(number::CATEGORY_COVER));
        }
        let days = by_leg(&ranges.days);
        if !cover_once(&days, last) {
            return Err(service(number::DAYS_COVER));
        }
        if form_two_stretches(&days, fields) {
            return Err(service(number::STRETCHES));
        }
        Ok(ranges)
    }

    /// The ranges on the route, or 16 at the first line of any sort that is wrong.
    fn find_ranges(&self) -> Result<Ranges, Offence> {
        let categories = find(&self.categories, &self.calls, |from, to| from < to);
        let days = find(&self.days, &self.calls, |from, to| from < to);
        let others = find(&self.others, &self.calls, |from, to| from <= to);
        match (categories, days, others) {
            (Ok(categories), Ok(days), Ok(others)) => Ok(Ranges { categories, days, others }),
            (categories, days, others) => {
                let wrong = [categories.err(), days.err(), others.err()];
                let line = wrong.iter().flatten().min().copied().unwrap_or(0);
                Err(Offence::at(line, number::RANGE))
            }
        }
    }
}

/// "no departure at the first call, no arrival at the last, either missing between; or a stated time below the one stated
/// before": the first such call.
fn wrong_call(calls: &[Call]) -> Option<&Call> {
    let (mut latest, last) = (0, calls.len() - 1);
    calls.iter().enumerate().find_map(|(at, call)| {
        let missing = (at > 0 && call.arrival.is_none()) || (at < last && call.departure.is_none());
        let stated = [call.arrival, call.departure];
        let in_order = stated.iter().flatten().all(|time| std::mem::replace(&mut latest, time.minutes) <= time.minutes);
        Some(call).filter(|_| missing || !in_order)
    })
}

/// Each range on the route, or the line of the first that has an end that is not found, or its ends in wrong order.
fn find<T: Copy>(
    ranges: &[Range<T>],
    calls: &[Call],
    in_order: impl Fn(usize, usize) -> bool,
) -> Result<Vec<Found<T>>, u32> {
    let found = |range: &Range<T>| match (from_index(range.from, calls), to_index(range.to, calls)) {
        (Some(from), Some(to)) if in_order(from, to) => Ok(Found { given: range.given, from, to }),
        _ => Err(range.line),
    };
    ranges.iter().map(found).collect()
}

/// The ranges in the order in which they start.
fn by_leg<T: Copy>(ranges: &[Found<T>]) -> Vec<Found<T>> {
    let mut sorted = ranges.to_vec();
    sorted.sort_unstable_by_key(|range| range.from);
    sorted
}

/// Whether each leg up to the last call is covered by exactly one range: the next starts where one ends.
fn cover_once<T>(sorted: &[Found<T>], last: usize) -> bool {
    let mut end = 0;
    sorted.iter().all(|range| std::mem::replace(&mut end, range.to) == range.from) && end == last
}

/// "on some day the operated legs form two or more separate stretches": on some day of a range an earlier one ran, and the
/// one before did not.
fn form_two_stretches(sorted: &[Found<u32>], fields: &BitFields) -> bool {
    let (mut ran, mut before) = (Bits::NONE, Bits::NONE);
    sorted.iter().filter_map(|range| fields.get(range.given)).any(|days| {
        let again = days.and(&ran.without(&before)) != Bits::NONE;
        ran = ran.or(days);
        before = *days;
        again
    })
}
