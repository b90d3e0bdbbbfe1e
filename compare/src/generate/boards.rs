//! Questions for departure boards (document 02, No. 9), and words beside a table that are its index or nearly so.

use super::bend_table::{IN_PLACE, RANGES};
use super::questions::{date, last_run, stop};
use super::raw_table::{parts, RawTable};
use super::rng::Rng;
use crate::layout::{CALL_DEPARTURE_AT, CALL_PLACE_AT, KIND_AT, OFFSET_AT, REPEATS_AT, STOP_NUMBER_AT, USED_AT};
use crate::reader::board::BOARD_ROW_WORDS;
use crate::reader::runs::Runs;
use crate::reader::{index_words, is_table, BoardQuestion};

/// With more runs than this a span is short, so that a board has some thousand rows at most.
const MANY_RUNS: u64 = 2_000;

/// A question that the words have departures for more often than not, with its span at, before or behind one of them.
pub fn board_question(rng: &mut Rng, words: &[u32]) -> BoardQuestion {
    let date = date(rng, words);
    let any = rng.below(1_500);
    let drawn = if is_table(words) { drawn(rng, &parts(&words[..words[USED_AT] as usize])) } else { None };
    let (own, time, is_many) = drawn.unwrap_or((0, any, true));
    let stop = if own == 0 || rng.once_in(8) { stop(rng, words) } else { own };
    let (before, behind) = (time.saturating_sub(1), time + 1);
    let hour = (time.saturating_sub(60), time + 60);
    let [first, last] = match rng.below(if is_many { 9 } else { 14 }) {
        0 | 1 => [time, time],
        2 => [before, before],
        3 => [behind, behind],
        4 => [time, hour.1],
        5 => [hour.0, time],
        6 => rng.pick(&[[behind, hour.1], [hour.0, before]]),
        7 => rng.pick(&[[time, before], [behind, time], [u32::MAX, 0], [1, 0]]),
        8 => [hour.0, hour.1],
        9 => [0, time],
        10 => [0, before],
        11 => [behind, u32::MAX],
        12 => [time, u32::MAX],
        _ => [0, u32::MAX],
    };
    BoardQuestion { stop, date, first, last }
}

/// The stop and the time of some call of some run, whether it departs or not, and whether the services have many runs.
fn drawn(rng: &mut Rng, raw: &RawTable) -> Option<(u32, u32, bool)> {
    if raw.services.is_empty() {
        return None;
    }
    let service = &raw.services[rng.index(raw.services.len())];
    let call = &service.calls[rng.index(service.calls.len())];
    let last = last_run(&service.head);
    let any = rng.below(last as u32 + 1);
    let run = rng.pick(&[0, last as u32, any, any]);
    let [kind, repeats, offset] = [KIND_AT, REPEATS_AT, OFFSET_AT].map(|at| service.head[at]);
    let late = Runs::of_words(kind, [repeats, offset])?.late(run)?;
    let is_many = raw.services.iter().map(|service| last_run(&service.head)).sum::<u64>() > MANY_RUNS;
    let number = raw.stops[call[CALL_PLACE_AT] as usize][STOP_NUMBER_AT];
    Some((number, call[CALL_DEPARTURE_AT] + late, is_many))
}

/// Room for a board that needs so many words: just enough, a word or a row short, some more, or none.
pub fn board_room(rng: &mut Rng, needed: usize) -> usize {
    let short = [needed.saturating_sub(1), needed.saturating_sub(BOARD_ROW_WORDS), 0];
    match rng.below(8) {
        0..=3 => needed,
        4 => needed + rng.index(9),
        _ => rng.pick(&short),
    }
}

/// A table whose records stand as when these words beside it were made, with calls or ranges damaged since, and with any mark; and a question.
pub struct Marked {
    pub table: Vec<u32>,
    pub index: Vec<u32>,
    pub asked: BoardQuestion,
    /// The names of the damages.
    pub damages: Vec<&'static str>,
}

/// Such words of a table.
pub fn marked(rng: &mut Rng, table: &[u32]) -> Option<Marked> {
    let mut raw = parts(&table[..table[USED_AT] as usize]);
    if rng.coin() {
        rng.pick(RANGES)(rng, &mut raw);
    }
    let before = raw.words();
    let mut index = index_words(&before)?;
    if rng.coin() {
        damage_mark(rng, &mut index);
    }
    let drawn: Vec<_> = (0..rng.below(3)).map(|_| rng.pick(IN_PLACE)).collect();
    let damages = drawn.into_iter().filter_map(|(name, bend)| bend(rng, &mut raw).map(|()| name)).collect();
    Some(Marked { table: raw.words(), index, asked: board_question(rng, &before), damages })
}

/// Words that are not an index, but nearly: a word changed, one more, one less, two exchanged, or the front alone.
pub fn damaged_index(rng: &mut Rng, index: &[u32]) -> Vec<u32> {
    let mut words = index.to_vec();
    if words.is_empty() {
        return vec![0];
    }
    let (at, other) = (rng.index(words.len()), rng.index(words.len()));
    match rng.below(12) {
        0 => words.push(rng.pick(&[0, 0, 1, u32::MAX])),
        1 => {
            words.pop();
        }
        2 => words.truncate(at),
        3 => words.swap(at, other),
        4 => words.insert(at, index[other]),
        5 | 6 => damage_mark(rng, &mut words),
        _ => damage_word(rng, &mut words, at),
    }
    words
}

/// Any mark: 1, 0, or a word that is none.
pub fn damage_mark(rng: &mut Rng, index: &mut [u32]) {
    let any = rng.draw() as u32;
    if let Some(mark) = index.last_mut() {
        *mark = rng.pick(&[0, 0, 1, 1, 2, 3, 257, 1 << 31, u32::MAX, any]);
    }
}

/// Another value of one word, likely to mean something.
pub fn damage_word(rng: &mut Rng, words: &mut [u32], at: usize) {
    let (was, any) = (words[at], rng.draw() as u32);
    let length = words.len() as u32;
    let other = words[rng.index(words.len())];
    words[at] =
        rng.pick(&[was ^ 1, was.wrapping_add(1), was.wrapping_sub(1), 0, 1, other, length, 1 << 31, u32::MAX, any]);
}
