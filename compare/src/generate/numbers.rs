//! Numbers of stops and bit fields for large files: none twice, and each one that its file may hold.

use std::collections::HashSet;

use super::rng::Rng;

/// How the numbers of a file follow one another.
#[derive(Clone, Copy, Debug, PartialEq, Eq)]
pub enum Numbers {
    /// Each one more than the one before, where the file may hold it.
    Consecutive,
    /// A hundred with the same last digits, as far apart as that lets them be, then a hundred with the next ones.
    EqualEnding,
    Random,
}

impl Numbers {
    /// So many numbers for BAHNHOF: seven digits, not 9999999 and not ending 00000.
    pub fn stops(self, rng: &mut Rng, count: usize) -> Vec<u32> {
        self.take(rng, 10_000_000, count, |number| number != 9_999_999 && number % 100_000 != 0)
    }

    /// So many numbers for BITFELD: six digits, not 000000.
    pub fn bit_fields(self, rng: &mut Rng, count: usize) -> Vec<u32> {
        self.take(rng, 1_000_000, count, |number| number != 0)
    }

    fn take(self, rng: &mut Rng, limit: u32, count: usize, may: impl Fn(u32) -> bool) -> Vec<u32> {
        let mut seen = HashSet::new();
        let numbers: Box<dyn Iterator<Item = u32>> = match self {
            Numbers::Consecutive => Box::new(limit / 10..limit),
            Numbers::EqualEnding => Box::new((0..limit).map(|i| i % 100 * (limit / 100) + i / 100 + 1)),
            Numbers::Random => {
                Box::new(std::iter::repeat_with(|| rng.below(limit)).filter(|number| seen.insert(*number)))
            }
        };
        numbers.filter(|number| may(*number)).take(count).collect()
    }
}

impl std::str::FromStr for Numbers {
    type Err = String;

    fn from_str(text: &str) -> Result<Numbers, String> {
        match text {
            "consecutive" => Ok(Numbers::Consecutive),
            "equal-ending" => Ok(Numbers::EqualEnding),
            "random" => Ok(Numbers::Random),
            _ => Err(format!("numbers are consecutive, equal-ending or random, not {}", text)),
        }
    }
}
