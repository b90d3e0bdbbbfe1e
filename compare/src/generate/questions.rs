//! Random questions on the words of a table or of none.

use super::plan::date_of;
use super::rng::Rng;
use crate::layout::{
    BIT_FIELDS_AT, BIT_FIELD_WORDS, CLASSES_AT, CLASS_WORDS, FIRST_DAY_AT, FIRST_SERVICE_AT, HEADER_WORDS, KIND_AT,
    KIND_T, MOST_ROW_WORDS, OFFSET_AT, PERIOD_DAYS_AT, REPEATS_AT, ROW_WORDS, SERVICES_AT, SERVICE_WORDS, SIZE_AT,
    STOPS_AT, STOP_WORDS,
};
use crate::reader::calendar::{LAST_DAY, MOST_PERIOD_DAYS};

#[derive(Clone, Copy, Debug, PartialEq, Eq)]
pub enum Question {
    Day { date: [u32; 3], bitfield: u32 },
    Interchange { stop: u32, classes: [u32; 2] },
    Between { stop: u32, categories: [u32; 2] },
    Walk { service: u32, repeat: u32, date: [u32; 3], room: usize },
}

/// A question that the words have an answer to more often than not.
pub fn question(rng: &mut Rng, words: &[u32]) -> Question {
    match rng.below(8) {
        0 => Question::Day { date: date(rng, words), bitfield: bitfield(rng, words) },
        1 => Question::Interchange { stop: stop(rng, words), classes: [class(rng), class(rng)] },
        2 | 3 => Question::Between { stop: stop(rng, words), categories: [category(rng, words), category(rng, words)] },
        _ => walk(rng, words),
    }
}

fn word(words: &[u32], at: usize) -> u32 {
    words.get(at).copied().unwrap_or(0)
}

pub fn date(rng: &mut Rng, words: &[u32]) -> [u32; 3] {
    let (first, n) = (word(words, FIRST_DAY_AT).min(LAST_DAY), word(words, PERIOD_DAYS_AT).clamp(1, MOST_PERIOD_DAYS));
    let day = match rng.below(12) {
        0 => first.saturating_sub(1),
        1 => first + n,
        2 => first,
        3 => first + n - 1,
        _ => first + rng.below(n),
    };
    let (d, m, y) = date_of(day.min(LAST_DAY));
    match rng.below(24) {
        0 => rng.pick(&[[29, 2, 1900], [31, 4, y], [0, m, y], [d, 0, y], [d, 13, y], [d, m, 1899], [d, m, 2200]]),
        1 => {
            rng.pick(&[[u32::MAX, m, y], [d, u32::MAX, y], [d, m, u32::MAX], [0, 0, 0], [32, m, y], [d, m, y + 65_536]])
        }
        _ => [d, m, y],
    }
}

fn bitfield(rng: &mut Rng, words: &[u32]) -> u32 {
    match word(words, BIT_FIELDS_AT) {
        listed @ 1..=1_000 if !rng.once_in(5) => {
            word(words, HEADER_WORDS + BIT_FIELD_WORDS * rng.index(listed as usize))
        }
        _ => rng.pick(&[0, 1, 77, 1_000_000, u32::MAX]),
    }
}

pub fn stop(rng: &mut Rng, words: &[u32]) -> u32 {
    let start = HEADER_WORDS + BIT_FIELD_WORDS * word(words, BIT_FIELDS_AT) as usize;
    match word(words, STOPS_AT) {
        listed @ 1..=1_000 if !rng.once_in(5) => word(words, start + STOP_WORDS * rng.index(listed as usize)),
        _ => rng.pick(&[9_999_999, 0, 1, 1_000_011, u32::MAX]),
    }
}

fn class(rng: &mut Rng) -> u32 {
    rng.pick(&[0, 1, 1, 2, 2, 2, 3, 3, 13, 14, u32::MAX, 0, 1])
}

/// Mostly a category that is listed; else one of other bytes, or the code of a listed one with a byte or a case changed.
fn category(rng: &mut Rng, words: &[u32]) -> u32 {
    let end = word(words, FIRST_SERVICE_AT) as usize;
    match word(words, CLASSES_AT) {
        listed @ 1..=1_000 => {
            let at = end.saturating_sub(CLASS_WORDS * (listed as usize - rng.index(listed as usize)));
            let code = word(words, at);
            match rng.below(12) {
                0 => rng.pick(&[0, code ^ 0x20, code ^ 0x20_0000, code ^ 1, code | 1 << 24, u32::MAX]),
                _ => code,
            }
        }
        _ => rng.pick(&[0, 0x42_4154, u32::MAX]),
    }
}

/// The head of a service, where the words have one so far.
pub fn head_of(words: &[u32], service: u32) -> Option<&[u32]> {
    let mut at = word(words, FIRST_SERVICE_AT) as usize;
    for _ in 0..service {
        let size = *words.get(at.checked_add(SIZE_AT)?)? as usize;
        if size < SERVICE_WORDS {
            return None;
        }
        at = at.checked_add(size)?;
    }
    words.get(at..)?.get(..SERVICE_WORDS)
}

/// The last run that a head's words say, counted from 0.
pub fn last_run(head: &[u32]) -> u64 {
    let [repeats, offset] = [REPEATS_AT, OFFSET_AT].map(|at| u64::from(head[at]));
    match head[KIND_AT] {
        KIND_T => 60 * repeats / offset.max(1),
        _ => repeats,
    }
}

/// A run at, below or above the last one, or so far above that its product with the offset or density is small again modulo 2^32.
fn near_last_run(rng: &mut Rng, head: &[u32]) -> u32 {
    let (last, offset) = (last_run(head), u64::from(head[OFFSET_AT]).max(1));
    let wrapped = (1 << 32) / offset + u64::from(rng.below(3));
    let any = u64::from(rng.below(last.clamp(1, 1 << 30) as u32));
    let run = rng.pick(&[last, last, last + 1, last + 1, last.saturating_sub(1), any, any, any, wrapped, 60 * last]);
    u32::try_from(run).unwrap_or(u32::MAX)
}

fn walk(rng: &mut Rng, words: &[u32]) -> Question {
    let services = word(words, SERVICES_AT);
    let service = match rng.below(10) {
        0 => rng.pick(&[services, u32::MAX]),
        _ => rng.below(services.clamp(1, 1_000)),
    };
    let repeat = match (rng.below(6), head_of(words, service)) {
        (0, _) => rng.pick(&[1, 24, 999, 1_000, u32::MAX]),
        (1, _) => rng.below(3),
        (2..=4, Some(head)) => near_last_run(rng, head),
        _ => 0,
    };
    let room = match rng.below(5) {
        0 => rng.index(60),
        1 => ROW_WORDS * rng.index(8),
        _ => MOST_ROW_WORDS,
    };
    Question::Walk { service, repeat, date: date(rng, words), room }
}
