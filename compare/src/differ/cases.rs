//! What a case is made of.

use crate::generate::{counted_helper, mixed, oversized, some_helper, Case, Rng};
use crate::layout::ROW_WORDS;
use crate::reader::load::MOST_FILE_BYTES;

/// Once in so many cases a file has 16,777,216 bytes or more.
pub const OVERSIZED_EVERY: u64 = 2_500;

/// A case's own generator: the same for the same seed and index, whatever ran before.
pub fn rng_of(seed: u64, index: u64) -> Rng {
    let mixed = Rng::new(seed).draw().wrapping_add(Rng::new(!index).draw());
    Rng::new(mixed)
}

/// The delivery of a case.
pub fn delivery(rng: &mut Rng, index: u64) -> Case {
    if index % OVERSIZED_EVERY == OVERSIZED_EVERY - 1 {
        return over_length(rng);
    }
    mixed(rng, (index % 1_000_000) as u32)
}

/// "First, lengths in file order": a file at or over the limit, now and then beside a broken or a second long file; FPLAN and ZUGART, whose order is not that
/// of their numbers, more often.
fn over_length(rng: &mut Rng) -> Case {
    let mut case = oversized(rng);
    let beside = rng.index(6);
    match rng.below(5) {
        0 => case.files[beside] = b"broken".to_vec(),
        1 => case.files[beside] = oversized(rng).files[beside].clone(),
        2 => case.files[4..].iter_mut().for_each(|file| file.resize(MOST_FILE_BYTES + 1, b' ')),
        _ => return case,
    }
    case.helper = some_helper(rng, counted_helper(&case.files), 2);
    case
}

/// Words of no sense at all.
pub fn senseless(rng: &mut Rng) -> Vec<u32> {
    let length = rng.index(40);
    (0..length).map(|_| rng.draw() as u32 >> rng.pick(&[0, 16, 28])).collect()
}

/// For a walk that listed rows or found too little room, another room about as large as it needs.
pub fn other_room(rng: &mut Rng, answer: &[u32]) -> Option<usize> {
    let needed = match answer {
        [29, _, needed] => *needed as usize,
        [0, rows, _] if *rows > 0 => ROW_WORDS * *rows as usize,
        _ => return None,
    };
    Some(rng.pick(&[needed, needed, needed - 1, needed + 5, 0]))
}
