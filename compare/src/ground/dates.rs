//! Dates of three numbers, and periods of two days.

use super::question::{about, What};
use super::tally::Tally;
use crate::generate::Rng;
use crate::reader::calendar::{LAST_DAY, MOST_PERIOD_DAYS};

/// Every day of 1900 to 2199, and what stands around: days 0 to 40, months 0 to 15, years 1890 to 2210.
fn ask_all_days(tally: &mut Tally) {
    for year in 1890..=2210 {
        for month in 0..=15 {
            for day in 0..=40 {
                tally.ask(about(What::Day, &[], &[day, month, year]));
            }
        }
    }
}

/// Numbers far outside, in each place.
fn ask_far_days(tally: &mut Tally) {
    let far = [0, 1, 2, 28, 29, 31, 32, 255, 256, 1900, 2000, 2199, 65_536, 4_294_965_196, u32::MAX];
    for day in far {
        for month in far {
            for year in far {
                tally.ask(about(What::Day, &[], &[day, month, year]));
            }
        }
    }
}

fn ask_periods(tally: &mut Tally, rng: &mut Rng, rounds: u32) {
    let most = MOST_PERIOD_DAYS;
    let edges = [0, 1, most - 1, most, most + 1, 35_336, LAST_DAY, 1 << 31, u32::MAX - most, u32::MAX];
    for round in 0..rounds {
        let start = if round % 2 == 0 { rng.pick(&edges) } else { rng.below(110_000) };
        let length = rng.between(0, 384);
        let last = match rng.below(4) {
            0 => start.wrapping_sub(length),
            1 => rng.pick(&edges),
            _ => start.wrapping_add(length),
        };
        tally.ask(about(What::Period, &[], &[start, last]));
    }
}

pub fn ask(tally: &mut Tally, rng: &mut Rng, rounds: u32) {
    ask_all_days(tally);
    ask_far_days(tally);
    ask_periods(tally, rng, rounds / 50);
}
