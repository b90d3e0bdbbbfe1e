//! Tables to ask: loaded, bent, and of no sense; with indexes of their own, damaged ones, and others'.

use crate::boundary::{Boundary, Reader};
use crate::differ::senseless;
use crate::generate::boards::damaged_index;
use crate::generate::{damaged_table, valid, Rng, Size};
use crate::reader::index_words;

/// What a delivery's load leaves, and its BAHNHOF.
pub struct Loaded {
    pub table: Vec<u32>,
    pub bahnhof: Vec<u8>,
}

/// The table of a delivery that breaks no rule.
pub fn loaded(rng: &mut Rng) -> Loaded {
    let size = match rng.below(200) {
        0 => Size::Large,
        1..=40 => Size::Medium,
        _ => Size::Small,
    };
    let case = valid(rng, size);
    let (mut table, mut helper) = (vec![0xAAAA_AAAA; case.room], case.helper.clone());
    match Reader.load(case.slices(), &mut table, &mut helper) {
        [0, ..] => {}
        refused => panic!("a delivery that breaks no rule is refused: {:?}", refused),
    }
    Loaded { table, bahnhof: case.files[2].clone() }
}

/// The table as it is, bent, or now and then words of no sense.
pub fn turned(rng: &mut Rng, table: &[u32], turn: u32) -> Vec<u32> {
    match turn % 3 {
        0 => table.to_vec(),
        _ if rng.once_in(100) => senseless(rng),
        _ => damaged_table(rng, table),
    }
}

/// An index beside a table.
pub struct Beside {
    pub words: Vec<u32>,
    pub is_own: bool,
    /// Its own but for the mark, which no question reads but a board.
    pub is_own_unmarked: bool,
}

/// The table's own index; once in so many times a damaged one, that of the table before it was bent, or another's. Words that are no table get that of the table before.
pub fn beside(rng: &mut Rng, table: &[u32], before: &[u32], rare: u32) -> Beside {
    let own = index_words(table);
    let words = match (&own, rng.below(rare * 4)) {
        (Some(own), 0 | 1) => damaged_index(rng, own),
        (_, 2) => index_words(before).unwrap_or_default(),
        (_, 3) => index_words(&loaded(rng).table).unwrap_or_default(),
        (Some(own), _) => own.clone(),
        (None, _) => index_words(before).unwrap_or_default(),
    };
    let is_own = own.as_ref() == Some(&words);
    let is_own_unmarked = own.map_or(false, |own| otherwise_marked(&own, &words).is_some());
    Beside { words, is_own, is_own_unmarked }
}

/// The mark of words that are an index but for it.
pub fn otherwise_marked(own: &[u32], words: &[u32]) -> Option<u32> {
    let ((own_mark, own), (mark, words)) = (own.split_last()?, words.split_last()?);
    Some(*mark).filter(|_| own == words && own_mark != mark)
}

/// A mark by name.
pub fn mark_name(mark: u32) -> &'static str {
    match mark {
        0 => "mark 0",
        1 => "mark 1",
        2 => "mark 2",
        _ => "no such mark",
    }
}
