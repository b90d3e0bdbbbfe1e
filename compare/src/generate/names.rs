//! The name field of a stop (document 02, No. 3): lists of names with patterns, lists that break one clause of 39, and questions
//! for a name.

use super::questions::stop;
use super::rng::Rng;
use crate::layout::{BIT_FIELDS_AT, BIT_FIELD_WORDS, HEADER_WORDS, STOPS_AT, STOP_WORDS};

/// Columns 13-62.
pub const FIELD: usize = 50;

/// 5.1's letters; the first ones come more often.
const LETTERS: &[u8] = b"dddeeffhijnopstuwx";

/// A name and its patterns, each letters and digits.
#[derive(Clone, Debug, PartialEq, Eq)]
pub struct Entry {
    pub name: Vec<u8>,
    pub patterns: Vec<(Vec<u8>, Vec<u8>)>,
    /// After the last pattern "a "$" before the next name may be there or not".
    parted: bool,
}

/// A name field that is a list; its last byte is not blank, and it fits into its columns.
pub fn list(rng: &mut Rng) -> Vec<Entry> {
    let mut entries: Vec<Entry> = (0..rng.pick(&[1, 2, 2, 3, 5])).map(|_| entry(rng)).collect();
    while written(&entries).len() > FIELD && entries.len() > 1 {
        entries.pop();
    }
    if written(&entries).len() > FIELD {
        entries[0].patterns.clear();
    }
    let spare = FIELD - written(&entries).len();
    if rng.once_in(4) {
        // the longest list
        let fill: Vec<u8> = (0..spare).map(|_| rng.byte(false)).collect();
        entries[0].name.extend(fill);
    }
    entries
}

fn entry(rng: &mut Rng) -> Entry {
    let length = rng.pick(&[1, 1, 2, 4, 9]);
    let mut name = rng.text(length);
    name[length - 1] = rng.byte(false);
    let patterns = (0..rng.pick(&[0, 0, 1, 1, 2, 3])).map(|_| pattern(rng)).collect();
    Entry { name, patterns, parted: rng.coin() }
}

fn pattern(rng: &mut Rng) -> (Vec<u8>, Vec<u8>) {
    let (letters, digits) = rng.pick(&[(1, 0), (1, 0), (0, 1), (1, 1), (2, 1), (1, 2), (0, 3), (3, 0), (2, 2)]);
    ((0..letters).map(|_| rng.pick(LETTERS)).collect(), (0..digits).map(|_| rng.pick(b"123456789")).collect())
}

/// The bytes of a list.
pub fn written(entries: &[Entry]) -> Vec<u8> {
    let mut field = Vec::new();
    for (i, entry) in entries.iter().enumerate() {
        field.extend_from_slice(&entry.name);
        if !entry.patterns.is_empty() {
            field.push(b'$');
        }
        for (letters, digits) in &entry.patterns {
            field.extend([&b"<"[..], letters, digits, b">"].concat());
        }
        if i + 1 < entries.len() && (entry.patterns.is_empty() || entry.parted) {
            field.push(b'$');
        }
    }
    field
}

/// What stands in the place of an entry, between two "$" or at an end, and makes the list a bad one.
const WRONG: &[&[u8]] = &[
    b"", b"<", b">", b"A>", b"A>B", b"A<B", b"A<d>", b"A<1>", b"A$<", b"A$<>", b"A$<d", b"A$<1", b"A$<d1", b"A$<1d>",
    b"A$<d1e>", b"A$<a>", b"A$<g>", b"A$<z>", b"A$<D>", b"A$<0>", b"A$<d0>", b"A$<:>", b"A$<d >", b"A$< d>",
    b"A$<d,e>", b"A$<d$>", b"A$<<d>", b"A$<d>>", b"A$<d><", b"A$<d><>", b"A$<d>$<e>", b"A$<d>$$A", b"A$ <d>",
];

/// A field that is no list and not blank, which no blanks around it mend.
pub fn bad_list(rng: &mut Rng) -> Vec<u8> {
    match rng.below(8) {
        // a pattern, or "$", before any name
        0 => [rng.pick::<&[u8]>(&[b"<d>", b"$", b"$<1>", b"<>"]), &short_list(rng)].concat(),
        // "$" behind all
        1 => [&short_list(rng)[..], b"$"].concat(),
        // right as far as it goes, but cut at column 62
        2 => {
            let kept = rng.between(1, 6) as usize;
            let name: Vec<u8> = (0..FIELD - kept).map(|_| rng.byte(false)).collect();
            [&name[..], b"$<de12>"].concat()
        }
        _ => {
            let (before, after) = (short_list(rng), short_list(rng));
            let wrong = rng.pick(WRONG);
            match rng.below(4) {
                0 => [&before[..], b"$", wrong].concat(),
                1 => [wrong, b"$", &after].concat(),
                2 if !wrong.is_empty() => wrong.to_vec(),
                _ => [&before[..], b"$", wrong, b"$", &after].concat(),
            }
        }
    }
}

fn short_list(rng: &mut Rng) -> Vec<u8> {
    let mut one = entry(rng);
    one.name.truncate(2);
    one.patterns.truncate(1);
    let end = one.name.len() - 1;
    one.name[end] = rng.byte(false);
    written(&[one])
}

/// A question for a stop's name.
#[derive(Clone, Copy, Debug, PartialEq, Eq)]
pub struct NameQuestion {
    pub stop: u32,
    pub language: u32,
    pub kind: u32,
}

/// A question that the words have an answer to more often than not.
pub fn name_question(rng: &mut Rng, words: &[u32]) -> NameQuestion {
    let letter = u32::from(rng.pick(LETTERS));
    let language = match rng.below(12) {
        0 => rng.pick(&[1, 9, b'a' as u32, b'g' as u32, b'v' as u32, b'D' as u32, b'1' as u32, 256 + letter, u32::MAX]),
        1 | 2 => 0,
        _ => letter,
    };
    let kind = match rng.below(12) {
        0 => rng.pick(&[10, 11, u32::from(b'1'), 257, u32::MAX]),
        1..=5 => 0,
        _ => rng.between(1, 9),
    };
    NameQuestion { stop: stop(rng, words), language, kind }
}

/// BAHNHOF as it is lent to a question: mostly as it was loaded, also cut near the end of some stop's names, or with a byte changed.
pub fn other_bytes(rng: &mut Rng, words: &[u32], bahnhof: &[u8]) -> Vec<u8> {
    let mut bytes = bahnhof.to_vec();
    let record = some_record(rng, words);
    match (rng.below(8), record) {
        (0, Some([_, place, length])) => {
            let end = (u64::from(place) + u64::from(length)).min(bytes.len() as u64) as usize;
            bytes.truncate(rng.pick(&[end, end.saturating_sub(1), end + 1, place as usize]));
        }
        (1, Some([_, place, length])) if length > 0 => {
            let at = place as usize + rng.index(length.min(1_000) as usize);
            if let Some(byte) = bytes.get_mut(at) {
                *byte = rng.pick(b"$<>d1A0 \n");
            }
        }
        (2, _) => bytes = rng.pick::<&[u8]>(&[b"", b"A", b"$", b"A$<d>B"]).to_vec(),
        _ => {}
    }
    bytes
}

/// The record of some stop of a table.
fn some_record(rng: &mut Rng, words: &[u32]) -> Option<[u32; STOP_WORDS]> {
    let listed = *words.get(STOPS_AT)?;
    if listed == 0 {
        return None;
    }
    let first = HEADER_WORDS as u64 + BIT_FIELD_WORDS as u64 * u64::from(words[BIT_FIELDS_AT]);
    let at = usize::try_from(first).ok()? + STOP_WORDS * rng.index(listed.min(1_000) as usize);
    words.get(at..at + STOP_WORDS)?.try_into().ok()
}
