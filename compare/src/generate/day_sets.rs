//! Random arithmetic on operating days: fields of a period, now and then with something wrong.

use super::rng::Rng;
use crate::reader::calendar::MOST_PERIOD_DAYS;
use crate::reader::day_sets::Combination;

/// Arithmetic and all that it reads; `room` is the words lent for the result.
#[derive(Clone, Debug, PartialEq, Eq)]
pub enum Arithmetic {
    Combine { of: Combination, n: u32, first: Vec<u32>, second: Vec<u32>, room: usize },
    Complement { n: u32, field: Vec<u32>, room: usize },
    Count { n: u32, field: Vec<u32> },
}

const COMBINATIONS: [Combination; 3] = [Combination::Union, Combination::Intersection, Combination::Difference];

/// Arithmetic that is answered more often than not.
pub fn arithmetic(rng: &mut Rng) -> Arithmetic {
    let n = period(rng);
    match rng.below(5) {
        0 => Arithmetic::Complement { n, field: field(rng, n), room: room(rng) },
        1 => Arithmetic::Count { n, field: field(rng, n) },
        _ => {
            let (of, first) = (rng.pick(&COMBINATIONS), field(rng, n));
            let second = if rng.once_in(20) { first.clone() } else { field(rng, n) };
            Arithmetic::Combine { of, n, first, second, room: room(rng) }
        }
    }
}

/// The days of a period; about 1 and the most, where a word ends, and outside.
fn period(rng: &mut Rng) -> u32 {
    match rng.below(16) {
        0 => rng.pick(&[1, 2, 3, MOST_PERIOD_DAYS - 2, MOST_PERIOD_DAYS - 1, MOST_PERIOD_DAYS]),
        1 => (32 * rng.between(1, 12)).min(384) - rng.between(1, 5),
        2 if rng.coin() => rng.pick(&[0, MOST_PERIOD_DAYS + 1, 382, 383, 384, 412, u32::MAX - 1, u32::MAX]),
        _ => rng.between(1, MOST_PERIOD_DAYS),
    }
}

/// The words lent for a result.
fn room(rng: &mut Rng) -> usize {
    match rng.below(16) {
        0 => rng.pick(&[0, 1, 11, 13, 24]),
        _ => 12,
    }
}

/// A field of n days; now and then of another period, with one bit changed, of another length, or no field at all.
fn field(rng: &mut Rng, n: u32) -> Vec<u32> {
    match rng.below(32) {
        0 => {
            let opposite = MOST_PERIOD_DAYS - n.min(MOST_PERIOD_DAYS);
            let other = rng.pick(&[n.wrapping_sub(1), n.wrapping_add(1), n ^ 32, opposite]);
            framed(rng, other)
        }
        1 => with_bit_changed(rng, n),
        2 => of_length(rng, n),
        3 => (0..12).map(|_| rng.draw() as u32).collect(),
        _ => framed(rng, n),
    }
}

/// No days, each day, or some of them, in the frame of n days as far as twelve words hold it.
fn framed(rng: &mut Rng, n: u32) -> Vec<u32> {
    let days = n.min(382);
    let share = rng.pick(&[0, 1, 8, 8, 8, 15, 16]);
    let mut words = vec![0; 12];
    for k in 0..(days + 4).min(384) {
        let is_day = (2..days + 2).contains(&k);
        if !is_day || rng.below(16) < share {
            words[(k / 32) as usize] |= 0x8000_0000 >> (k % 32);
        }
    }
    words
}

fn with_bit_changed(rng: &mut Rng, n: u32) -> Vec<u32> {
    let end = n.min(MOST_PERIOD_DAYS);
    let at = match rng.below(3) {
        0 => rng.pick(&[0, 1, 2, end + 1, end + 2, end + 3, 383]),
        1 => (end + 4).min(383),
        _ => rng.below(384),
    };
    let mut words = framed(rng, n);
    words[(at / 32) as usize] ^= 0x8000_0000 >> (at % 32);
    words
}

fn of_length(rng: &mut Rng, n: u32) -> Vec<u32> {
    let mut words = framed(rng, n);
    words.resize(rng.pick(&[0, 1, 11, 13, 24]), 0);
    words
}
