//! The worst files for a map of chains with as many buckets as the file has lines, where a number's bucket is
//! `number * 2654435761 % 2^32 * lines / 2^32`: all numbers of a file are of one bucket.

use super::services::{categories, Services};
use super::{bit_field_file, category_file, interchange_file, plan_file, stop_line, year, USUAL_CATEGORIES};
use crate::columns::file;
use crate::generate::rng::Rng;

/// A chain has at most so many numbers as the file has lines, and as a bucket has numbers: ten millions of stops, one million of bit
/// fields, both over the lines. The longest are where the two are equal.
pub const WORST_STOP_LINES: usize = 3_162;
const WORST_FIELD_LINES: usize = 1_000;

/// Calls are at the first stops of the file, and ranges on its first bit fields: where a chain begins with the last number that was
/// put into it, these are at its end.
const DEEP_STOPS: usize = 12;
const DEEP_FIELDS: usize = 9;

/// BAHNHOF and UMSTEIGB of so many lines and BITFELD of a thousand, each of one bucket; FPLAN of so many bytes.
pub fn worst_numbers(rng: &mut Rng, fplan_bytes: usize, stop_lines: usize) -> [Vec<u8>; 6] {
    let stops = of_one_bucket(10_000_000, stop_lines, |number| number != 9_999_999 && number % 100_000 != 0);
    let fields = of_one_bucket(1_000_000, WORST_FIELD_LINES, |number| number != 0);
    let categories = categories(USUAL_CATEGORIES);
    let deep = Services {
        stops: &stops[..DEEP_STOPS.min(stops.len())],
        fields: &fields[..DEEP_FIELDS],
        categories: &categories,
    };
    let own = &stops[..stops.len().min(stop_lines - 1)];
    [
        year(),
        filled_up(bit_field_file(rng, &fields), fields.len(), WORST_FIELD_LINES),
        filled_up(file(&stops.iter().map(|stop| stop_line(rng, *stop)).collect::<Vec<_>>()), stops.len(), stop_lines),
        filled_up(interchange_file(rng, own), own.len() + 1, stop_lines),
        plan_file(rng, fplan_bytes, &deep),
        category_file(&categories),
    ]
}

/// A number's bucket among as many as there are lines.
pub fn bucket(number: u32, lines: usize) -> usize {
    let spread = number.wrapping_mul(2_654_435_761);
    ((u64::from(spread) * lines as u64) >> 32) as usize
}

/// The numbers below a limit that a file may hold, of the bucket that has most of them; not more than there are lines.
fn of_one_bucket(limit: u32, lines: usize, may: impl Fn(u32) -> bool) -> Vec<u32> {
    let numbers = || (0..limit).filter(|number| may(*number));
    let mut sizes = vec![0; lines];
    numbers().for_each(|number| sizes[bucket(number, lines)] += 1);
    let fullest = (0..lines).max_by_key(|at| sizes[*at]).unwrap_or(0);
    numbers().filter(|number| bucket(*number, lines) == fullest).take(lines).collect()
}

/// With skipped lines behind its records, so that there are so many lines.
fn filled_up(mut records: Vec<u8>, there: usize, lines: usize) -> Vec<u8> {
    records.resize(records.len() + lines.saturating_sub(there), b'\n');
    records
}
