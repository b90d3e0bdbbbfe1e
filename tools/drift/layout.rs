//! The Rust side of the drift test: what `planner/sys/src/raw.rs` declares against what a C compiler made of `include/estelunya.h`. What it says of each
//! function and answer is written by `sides.awk` from the Rattle source; only the calls with something given stand here.

use std::ffi::CStr;
use std::mem::{size_of, MaybeUninit};
use std::os::raw::c_char;
use std::ptr::addr_of;

use estelunya_planner::layout::{
    BIT_FIELD_WORDS, BIT_WORDS, CLASS_WORDS, HEADER_WORDS, HELPER_HEAD_WORDS, HELPER_LINE_WORDS, INTERCHANGE_WORDS,
    MOST_ROW_WORDS, ROW_WORDS, STOP_WORDS,
};
use estelunya_planner::{raw, Offence, Refusal};

/// The size of an answer and the places of its fields.
macro_rules! layout {
    ($answer:ty, $($field:ident),*) => {{
        let answer = MaybeUninit::<$answer>::uninit();
        let start = answer.as_ptr();
        // SAFETY: the place of a field is taken, nothing is read.
        vec![size_of::<$answer>(), $(unsafe { addr_of!((*start).$field) as usize - start as usize }),*]
    }};
}

include!(env!("DRIFT_SIDE"));

const FILES: [&[u8]; 6] = [
    include_bytes!("../../crates/ferry/data/ECKDATEN"),
    include_bytes!("../../crates/ferry/data/BITFELD"),
    include_bytes!("../../crates/ferry/data/BAHNHOF"),
    include_bytes!("../../crates/ferry/data/UMSTEIGB"),
    include_bytes!("../../crates/ferry/data/FPLAN"),
    include_bytes!("../../crates/ferry/data/ZUGART"),
];

fn main() {
    // SAFETY: these are constants of the C side.
    assert_eq!(unsafe { drift_places.to_vec() }, rust_places(), "sizes of the answers and places of their fields");
    assert_eq!(unsafe { drift_most_row_words }, MOST_ROW_WORDS);
    rust_types();
    nothing_given();
    numbers_handed_on();
    handed_on();
    days_handed_on();
    texts();
    println!("drift: layouts, prototypes, calls and texts of C and Rust agree");
}

/// The version, and words for files of 1 to 5 times 103 * 13 * 21 * 59 bytes, the bytes of the shortest lines: each in its own place.
fn numbers_handed_on() {
    // SAFETY: only numbers are given.
    unsafe {
        assert_eq!((drift_estelunya_version(), raw::estelunya_version()), (raw::VERSION, raw::VERSION));
        let [a, b, c, d, e] = [1, 2, 3, 4, 5].map(|times: usize| times * 103 * 13 * 21 * 59);
        // a line of FPLAN gives at most 8 words
        let expected = HEADER_WORDS
            + BIT_FIELD_WORDS * a / 103
            + STOP_WORDS * b / 13
            + INTERCHANGE_WORDS * c / 13
            + 8 * d / 59
            + CLASS_WORDS * e / 21;
        assert_eq!((drift_estelunya_room(a, b, c, d, e), raw::estelunya_room(a, b, c, d, e)), (expected, expected));
    }
}

/// The six files, the table and the helper words, each with its length.
type Load = unsafe extern "C" fn(
    *const u8,
    usize,
    *const u8,
    usize,
    *const u8,
    usize,
    *const u8,
    usize,
    *const u8,
    usize,
    *const u8,
    usize,
    *mut u32,
    usize,
    *mut u32,
    usize,
) -> raw::LoadResult;

/// A call that a C function hands on, and the same call: the same answer, and the same words lent. Gives both.
macro_rules! both {
    ($by_c:ident, $by_rust:path, $words:expr, ($($before:expr),*)) => {{
        let (mut by_c, mut by_rust): ([u32; $words], [u32; $words]) = ([9; $words], [9; $words]);
        // SAFETY: pointers and lengths are those of slices that do not overlap.
        let answers = unsafe {
            ($by_c($($before,)* by_c.as_mut_ptr(), by_c.len()), $by_rust($($before,)* by_rust.as_mut_ptr(), by_rust.len()))
        };
        assert_eq!((answers.0, by_c), (answers.1, by_rust), stringify!($by_rust));
        (answers.0, by_c)
    }};
}

/// The helper words that the trial week needs: BITFELD, BAHNHOF and UMSTEIGB have five lines.
const HELPED: usize = HELPER_HEAD_WORDS + 5 * HELPER_LINE_WORDS;

/// The trial week loaded, by C or not: the answer, the table's words and the helper words, two of them further ones.
fn loaded_by(load: Load) -> (raw::LoadResult, [u32; 100], [u32; HELPED + 2]) {
    let [a, b, c, d, e, f] = FILES.map(|file| (file.as_ptr(), file.len()));
    let (mut table, mut helper) = ([9; 100], [9; HELPED + 2]);
    let (words, helps) = ((table.as_mut_ptr(), table.len()), (helper.as_mut_ptr(), helper.len()));
    // SAFETY: pointers and lengths are those of slices that do not overlap.
    let answer =
        unsafe { load(a.0, a.1, b.0, b.1, c.0, c.1, d.0, d.1, e.0, e.1, f.0, f.1, words.0, words.1, helps.0, helps.1) };
    (answer, table, helper)
}

/// The trial week, loaded and asked by C.
fn handed_on() {
    let (loaded, table, helper) = loaded_by(drift_estelunya_load);
    assert_eq!((loaded, table, helper), loaded_by(raw::estelunya_load));
    assert_eq!((loaded.number, helper[HELPED - 1], helper[HELPED]), (0, 0, 9));
    let (words, length) = (table.as_ptr(), table.len());
    let (walked, _) =
        both!(drift_estelunya_walk, raw::estelunya_walk, 5 * ROW_WORDS, (words, length, 0, 0, 5, 12, 2025));
    assert_eq!((walked.number, walked.rows), (0, 4));
    // SAFETY: pointer and length are those of a slice.
    unsafe {
        let day = drift_estelunya_day(words, length, 5, 12, 2025, 1);
        assert_eq!((day, day.runs), (raw::estelunya_day(words, length, 5, 12, 2025, 1), 1));
        let (bahnhof, bytes) = (FILES[2].as_ptr(), FILES[2].len());
        let name = drift_estelunya_stop_name(words, length, bahnhof, bytes, 1_000_022, u32::from(b'd'), 1);
        let same = raw::estelunya_stop_name(words, length, bahnhof, bytes, 1_000_022, u32::from(b'd'), 1);
        assert_eq!((name, &FILES[2][name.start..][..name.length]), (same, &b"Quay B"[..]));
        let change = drift_estelunya_interchange(words, length, 1_000_011, 3, 1);
        assert_eq!((change, change.minutes), (raw::estelunya_interchange(words, length, 1_000_011, 3, 1), 3));
        let (bat, cat) = (0x42_4154, 0x43_4154);
        let between = drift_estelunya_interchange_between(words, length, 1_000_011, bat, bat);
        assert_eq!(
            (between, between.minutes),
            (raw::estelunya_interchange_between(words, length, 1_000_011, bat, bat), 3)
        );
        let unlisted = drift_estelunya_interchange_between(words, length, 1_000_011, bat, cat);
        assert_eq!(
            (unlisted, unlisted.number),
            (raw::estelunya_interchange_between(words, length, 1_000_011, bat, cat), 38)
        );
    }
}

/// Days 0 to 4 and days 4 to 6 of seven, reckoned by C.
fn days_handed_on() {
    let field = |digits: u32| {
        let mut words = [0; BIT_WORDS];
        words[0] = digits << 20;
        words
    };
    let (first, second) = (field(0xFE6), field(0xC3E));
    let (a, b) = ((first.as_ptr(), first.len()), (second.as_ptr(), second.len()));
    let results = [
        both!(drift_estelunya_days_union, raw::estelunya_days_union, BIT_WORDS, (7, a.0, a.1, b.0, b.1)),
        both!(drift_estelunya_days_intersection, raw::estelunya_days_intersection, BIT_WORDS, (7, a.0, a.1, b.0, b.1)),
        both!(drift_estelunya_days_difference, raw::estelunya_days_difference, BIT_WORDS, (7, a.0, a.1, b.0, b.1)),
        both!(drift_estelunya_days_complement, raw::estelunya_days_complement, BIT_WORDS, (7, a.0, a.1)),
    ];
    let expected = [0xFFE, 0xC26, 0xFC6, 0xC1E].map(|digits| (raw::DaySetResult { number: 0 }, field(digits)));
    assert_eq!(results, expected);
    // SAFETY: pointer and length are those of an array.
    unsafe {
        let count = drift_estelunya_days_count(7, a.0, a.1);
        assert_eq!((count, count.days), (raw::estelunya_days_count(7, a.0, a.1), 5));
    }
}

/// The sentences of `estelunya_texts.h` are those of the crate, which says number and words needed besides.
fn texts() {
    // SAFETY: every text is a constant of the C side.
    let text = |said: *const c_char| unsafe { CStr::from_ptr(said) }.to_str().expect("ASCII").to_string();
    for number in (0..1000).chain([u32::MAX]) {
        let (offence, refusal) = unsafe { (text(drift_offence_text(number)), text(drift_refusal_text(number))) };
        let expected = Offence::from_number(number).map_or(String::new(), |offence| offence.to_string());
        assert_eq!(offence, expected, "the text of offence {}", number);
        match Refusal::from_number(number, 7) {
            None => assert_eq!(refusal, "", "the text of refusal {}", number),
            Some(expected) => {
                let needed = match number {
                    29 => ": 7 words are needed",
                    45 => ": 7 bytes are needed",
                    _ => "",
                };
                assert_eq!(format!("refused {}: {}{}", number, refusal, needed), expected.to_string());
            }
        }
    }
}
