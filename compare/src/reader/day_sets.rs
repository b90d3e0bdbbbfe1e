//! Arithmetic on operating days (document 02, No. 7), on days: a field is read into its days, and a result written from them.

use std::convert::TryInto;

use super::bits::{frame_ok, runs_on, BitWords};
use super::calendar::MOST_PERIOD_DAYS;

/// What two fields are asked for.
#[derive(Clone, Copy, Debug, PartialEq, Eq)]
pub enum Combination {
    Union,
    Intersection,
    /// "first without second"
    Difference,
}

/// "42 if n is not 1 to 380 or a lent field or the result is not twelve words, or a field has a wrong frame"
const NO_FIELD: u32 = 42;

/// What is refused, by its number; the result words then stay.
#[derive(Clone, Copy, Debug, PartialEq, Eq)]
pub struct Refused {
    pub number: u32,
}

/// The field of the days that two fields make.
pub fn combine(of: Combination, n: u32, first: &[u32], second: &[u32], result: &mut [u32]) -> Result<(), Refused> {
    let (first, second) = (days(n, first)?, days(n, second)?);
    let both = first.iter().zip(&second);
    let made: Vec<bool> = match of {
        Combination::Union => both.map(|(a, b)| *a || *b).collect(),
        Combination::Intersection => both.map(|(a, b)| *a && *b).collect(),
        Combination::Difference => both.map(|(a, b)| *a && !*b).collect(),
    };
    write(&made, result)
}

/// "complement inside the period"
pub fn complement(n: u32, field: &[u32], result: &mut [u32]) -> Result<(), Refused> {
    let others: Vec<bool> = days(n, field)?.iter().map(|day| !day).collect();
    write(&others, result)
}

/// "the number of days"
pub fn day_count(n: u32, field: &[u32]) -> Result<u32, Refused> {
    Ok(days(n, field)?.iter().map(|day| u32::from(*day)).sum())
}

/// The n days of a field.
fn days(n: u32, field: &[u32]) -> Result<Vec<bool>, Refused> {
    let words: BitWords = field.try_into().map_err(|_| Refused { number: NO_FIELD })?;
    if !(1..=MOST_PERIOD_DAYS).contains(&n) || !frame_ok(&words, n) {
        return Err(Refused { number: NO_FIELD });
    }
    Ok((0..n).map(|d| runs_on(&words, d)).collect())
}

/// The field of these days, "with a proper frame": two bits 1 before the days and two after them.
fn write(days: &[bool], result: &mut [u32]) -> Result<(), Refused> {
    let words: &mut BitWords = result.try_into().map_err(|_| Refused { number: NO_FIELD })?;
    *words = BitWords::default();
    let frame = [true; 2];
    for (k, bit) in frame.iter().chain(days).chain(&frame).enumerate() {
        words[k / 32] |= u32::from(*bit) << (31 - k % 32);
    }
    Ok(())
}
