//! Large deliveries that break no rule: FPLAN of a wanted size, as many stops and bit fields as wanted, some 40 categories.

mod ends;
mod services;
mod shortest;
mod worst;

pub use shortest::{empty_lines, shortest_categories, shortest_in, shortest_records};
pub use worst::{bucket, worst_numbers, WORST_STOP_LINES};

use std::iter::once;

use super::numbers::Numbers;
use super::plan::{bitfield_of, set_bit};
use super::rng::Rng;
use crate::columns::{bit_digits, bitfield, category, file, text};
use services::{categories, Services};

pub const MIB: usize = 1_048_576;

/// A year, 14.12.2025 to 13.12.2026; its day 0 is a Sunday.
const DAYS: u32 = 365;

/// Of so many bit fields in a row, each runs on no day on which the one before rests.
const FAMILY: usize = 3;

/// How large a delivery is.
#[derive(Clone, Copy, Debug)]
pub struct National {
    /// FPLAN has at most so many bytes, and less than a service fewer.
    pub fplan_bytes: usize,
    pub stops: usize,
    pub bit_fields: usize,
    pub numbers: Numbers,
    pub categories: usize,
}

/// So many categories an operator lists.
pub const USUAL_CATEGORIES: usize = 40;

impl National {
    /// FPLAN of so many bytes, the other files in proportion: at 16 MiB 30,000 stops and 20,000 bit fields.
    pub fn of_bytes(fplan_bytes: usize) -> National {
        let share = |most: usize| (most * fplan_bytes / (16 * MIB)).max(10);
        let (numbers, categories) = (Numbers::Consecutive, USUAL_CATEGORIES);
        National { fplan_bytes, stops: share(30_000), bit_fields: share(20_000), numbers, categories }
    }
}

/// The files of such a delivery. Services need two stops or more.
pub fn national(rng: &mut Rng, size: &National) -> [Vec<u8>; 6] {
    let stops = size.numbers.stops(rng, size.stops);
    let fields = size.numbers.bit_fields(rng, size.bit_fields);
    let categories = categories(size.categories);
    let own: Vec<u32> = stops.iter().copied().filter(|_| rng.once_in(4)).collect();
    [
        year(),
        bit_field_file(rng, &fields),
        file(&stops.iter().map(|stop| stop_line(rng, *stop)).collect::<Vec<_>>()),
        interchange_file(rng, &own),
        plan_file(rng, size.fplan_bytes, &Services { stops: &stops, fields: &fields, categories: &categories }),
        category_file(&categories),
    ]
}

fn year() -> Vec<u8> {
    text(&["14.12.2025", "13.12.2026", "A year"])
}

/// Days of the week with exceptions; in a family fewer and fewer.
fn bit_field_file(rng: &mut Rng, numbers: &[u32]) -> Vec<u8> {
    let mut lines = Vec::new();
    for family in numbers.chunks(FAMILY) {
        let week: [bool; 7] = rng.pick(&[
            [true; 7],
            [false, true, true, true, true, true, false],
            [false, false, false, false, false, false, true],
            [true, false, false, false, false, false, true],
        ]);
        let mut words = bitfield_of(DAYS, |day| week[day as usize % 7]);
        for number in family {
            (0..DAYS).filter(|_| rng.once_in(20)).for_each(|day| set_bit(&mut words, day + 2, false));
            lines.push(bitfield(&format!("{:06}", number), &bit_digits(&words)));
        }
    }
    file(&lines)
}

/// A name of one word or several, now and then with a pattern (5.1) behind it.
fn stop_line(rng: &mut Rng, number: u32) -> String {
    let name = stop_name(number);
    let kind = rng.pick(&["", "", "", ", Bahnhof", ", Post", " Nord", ", alte Fabrik"]);
    let pattern = if rng.once_in(10) { "$<1>" } else { "" };
    format!("{:07}     {}{}{}", number, name, kind, pattern)
}

/// At most 21 bytes, so that it fits into a schedule line too.
fn stop_name(number: u32) -> String {
    const PLACES: [&str; 7] = ["Quay", "Bern", "Wiler", "Oberdorf", "Sankt Gallenkappel", "Au", "Rheinfelden"];
    let place = PLACES[number as usize % PLACES.len()];
    format!("{} {}", place, number % 97)
}

/// The first record, and one for each of these stops.
fn interchange_file(rng: &mut Rng, stops: &[u32]) -> Vec<u8> {
    let own = stops.iter().map(|stop| {
        let first = rng.between(1, 12);
        format!("{:07} {:>2} {:>2}", stop, first, first + rng.below(6))
    });
    file(&once("9999999  2  3".to_string()).chain(own).collect::<Vec<_>>())
}

/// All categories, each with a tariff group and its name.
fn category_file(categories: &[(String, u32)]) -> Vec<u8> {
    let line = |(code, class): &(String, u32)| format!("{}        {}", category(code, *class, "A"), code);
    file(&categories.iter().map(line).collect::<Vec<_>>())
}

/// As many services as find room, with a comment before every hundredth.
fn plan_file(rng: &mut Rng, bytes: usize, services: &Services<'_>) -> Vec<u8> {
    let mut plan = Vec::with_capacity(bytes);
    for number in 1.. {
        let mut lines = services.service(rng, number);
        if number % 100 == 0 {
            lines.insert(0, format!("% service {}", number));
        }
        let service = file(&lines);
        if plan.len() + service.len() > bytes {
            break;
        }
        plan.extend(service);
    }
    plan
}
