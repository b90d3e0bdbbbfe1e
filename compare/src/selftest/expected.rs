//! What a plan means, as a table and as walks: a second way to the same words.

use crate::generate::plan::{Given, Plan, Range, Runs, Service};
use crate::generate::sheet::{Sheet, Tag};
use crate::layout::{
    ARRIVAL, CALL_WORDS, CATEGORY_WORDS, DAYS_WORDS, DEPARTURE, EXTRA_WORDS, FIRST_SERVICE_AT, NO_ALIGHTING,
    NO_BOARDING, ROW_WORDS, SIZE_AT, USED_AT,
};
use crate::reader::bits::bit;

fn packed(bytes: &[u8]) -> u32 {
    bytes.iter().fold(0, |word, byte| 256 * word + u32::from(*byte))
}

/// The table of a plan whose lines are these; BAHNHOF's bytes say where the names stand.
pub fn expected_table(plan: &Plan, sheet: &Sheet, bahnhof: &[u8]) -> Vec<u32> {
    let mut words = vec![0, plan.first_day, plan.days];
    let counts = [plan.bitfields.len(), plan.stops.len(), plan.interchange.len(), plan.services.len()];
    words.extend(counts.map(|count| count as u32));
    words.extend([0, plan.categories.len() as u32]);
    for (number, bits) in &plan.bitfields {
        words.push(*number);
        words.extend(bits);
    }
    words.extend(expected_stops(plan, sheet, bahnhof));
    for (number, same, other) in &plan.interchange {
        words.extend([number, same, other]);
    }
    for category in &plan.categories {
        words.extend([packed(&category.code), category.class]);
    }
    words[FIRST_SERVICE_AT] = words.len() as u32;
    for (s, service) in plan.services.iter().enumerate() {
        words.extend(expected_service(plan, service, s, sheet));
    }
    words[USED_AT] = words.len() as u32;
    words
}

fn expected_stops(plan: &Plan, sheet: &Sheet, bahnhof: &[u8]) -> Vec<u32> {
    let mut words = Vec::new();
    let mut starts = vec![0];
    starts.extend((0..bahnhof.len()).filter(|i| bahnhof[*i] == b'\n').map(|i| i + 1));
    for (row, start) in sheet.files[2].iter().zip(starts) {
        if let Tag::Stop(i) = row.tag {
            let name: String = row.text[12..].iter().take(50).map(|byte| *byte as char).collect();
            words.extend([plan.stops[i], start as u32 + 12, name.trim_end_matches(' ').chars().count() as u32]);
        }
    }
    words
}

fn expected_service(plan: &Plan, service: &Service, s: usize, sheet: &Sheet) -> Vec<u32> {
    let (mut line, mut calls, mut g, mut v, mut a) = (0, Vec::new(), Vec::new(), Vec::new(), Vec::new());
    for (no, row) in (1..).zip(&sheet.files[4]) {
        let range = |i: usize| &service.ranges[i];
        match row.tag {
            Tag::Z(t) | Tag::T(t) if t == s => line = no,
            Tag::Call(t, i) if t == s => calls.push(call_words(plan, service, i, &row.text)),
            Tag::G(t, i) if t == s => g.extend(range_words(range(i))),
            Tag::Ve(t, i) if t == s => v.extend(range_words(range(i))),
            Tag::Other(t, i) if t == s => a.extend(range_words(range(i))),
            _ => {}
        }
    }
    let (kind, repeats, offset) = match service.runs {
        Runs::Repeats(None) => (0, 0, 0),
        Runs::Repeats(Some((repeats, offset))) => (0, repeats, offset),
        Runs::Frequency(running_time, density) => (1, running_time, density),
    };
    let (front, back) = service.administration.split_at(3);
    let counts = [calls.len(), g.len() / CATEGORY_WORDS, v.len() / DAYS_WORDS, a.len() / EXTRA_WORDS].map(|n| n as u32);
    let mut words = vec![0, service.number, packed(front), packed(back), repeats, offset];
    words.extend(counts);
    words.extend([line, kind]);
    words.extend(calls.concat());
    words.extend([g, v, a].concat());
    words[SIZE_AT] = words.len() as u32;
    words
}

/// The number and the administration that hold at a call: those of the last call up to it that states them, else the opening line's.
pub fn holding(service: &Service, i: usize) -> [u32; 3] {
    let up_to = || service.calls[..=i].iter().rev();
    let number = up_to().find_map(|call| call.change.number).unwrap_or(service.number);
    let administration = up_to().find_map(|call| call.change.administration).unwrap_or(service.administration);
    [number, packed(&administration[..3]), packed(&administration[3..])]
}

fn call_words(plan: &Plan, service: &Service, i: usize, line: &[u8]) -> [u32; CALL_WORDS] {
    let call = &service.calls[i];
    let flag = |holds: bool, value: u32| if holds { value } else { 0 };
    let flags = flag(call.arrival.is_some(), ARRIVAL)
        + flag(call.departure.is_some(), DEPARTURE)
        + flag(line[29] == b'-', NO_ALIGHTING)
        + flag(line[36] == b'-', NO_BOARDING);
    let [number, high, low] = holding(service, i);
    let place = plan.stops.iter().position(|stop| *stop == call.stop).unwrap() as u32;
    [place, call.arrival.unwrap_or(0), call.departure.unwrap_or(0), flags, number, high, low]
}

fn range_words(range: &Range) -> Vec<u32> {
    let mut words = match range.given {
        Given::Category(category) => vec![packed(&category)],
        Given::Days(bitfield) => vec![bitfield],
        Given::Other(code, bitfield) => vec![packed(&code), bitfield],
    };
    words.extend([range.from as u32, range.to as u32]);
    words
}

/// The last run of a service, from 0; of a *T by counting the seconds at which runs start.
pub fn last_run(service: &Service) -> u32 {
    match service.runs {
        Runs::Repeats(repeats) => repeats.map_or(0, |(repeats, _)| repeats),
        Runs::Frequency(running_time, density) => {
            let starts = (density..=60 * running_time).step_by(density as usize);
            starts.count() as u32
        }
    }
}

/// How late a run of a service is.
fn late(service: &Service, run: u32) -> u32 {
    match service.runs {
        Runs::Repeats(repeats) => run * repeats.map_or(0, |(_, offset)| offset),
        Runs::Frequency(_, density) => {
            let seconds = run * density;
            seconds / 60 + u32::from(seconds % 60 > 0)
        }
    }
}

/// The rows of a walk by the plan, with 0 for the flags; none if it is not running.
pub fn expected_walk(plan: &Plan, s: usize, repeat: u32, day: u32) -> Vec<u32> {
    let service = &plan.services[s];
    let runs = |leg: usize| {
        service.ranges.iter().any(|range| match range.given {
            Given::Days(0) => range.from <= leg && leg < range.to,
            Given::Days(number) => {
                let known = plan.bitfields.iter().find(|(other, _)| *other == number).unwrap();
                range.from <= leg && leg < range.to && bit(&known.1, day + 2)
            }
            _ => false,
        })
    };
    let operated: Vec<usize> = (0..service.calls.len() - 1).filter(|leg| runs(*leg)).collect();
    if operated.is_empty() {
        return Vec::new();
    }
    let (first, last) = (operated[0], operated[operated.len() - 1] + 1);
    let late = late(service, repeat);
    (first..=last).flat_map(|i| expected_row(plan, service, i, late, i == first, i == last)).collect()
}

fn expected_row(plan: &Plan, service: &Service, i: usize, late: u32, first: bool, last: bool) -> [u32; ROW_WORDS] {
    let call = &service.calls[i];
    let category = service.ranges.iter().find_map(|range| match range.given {
        Given::Category(category) if range.from <= i && i < range.to => Some(packed(&category)),
        _ => None,
    });
    let record = plan.interchange.iter().find(|record| record.0 == call.stop).unwrap_or(&plan.interchange[0]);
    let arrival = if first { 0 } else { call.arrival.unwrap() + late };
    let departure = if last { 0 } else { call.departure.unwrap() + late };
    let category = if last { 0 } else { category.unwrap() };
    let [number, high, low] = holding(service, i);
    [call.stop, arrival, departure, 0, number, high, low, category, record.1, record.2]
}
