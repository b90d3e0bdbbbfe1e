//! Bit fields: frames for every number of days at their boundaries, single bits and days, sets, and lines of BITFELD.

use super::question::{about, bit_bytes, What};
use super::tally::Tally;
use crate::columns::bit_digits;
use crate::generate::Rng;
use crate::reader::bits::{BitWords, BITS};
use crate::reader::calendar::MOST_PERIOD_DAYS;

fn random_words(rng: &mut Rng) -> BitWords {
    let fill = rng.pick(&[0, u32::MAX, 1, 1 << 31]);
    let every = rng.below(4);
    let mut words = [0; 12];
    for word in &mut words {
        *word = if rng.below(3) < every { rng.draw() as u32 } else { fill };
    }
    words
}

/// Bit k is changed.
fn flip(words: &mut BitWords, k: u32) {
    words[(k / 32) as usize] ^= 0x8000_0000 >> (k % 32);
}

/// "bits 0 and 1 are 1, bit d+2 is day d, bits n+2 and n+3 are 1, the rest 0", with days at random.
fn framed_words(rng: &mut Rng, n: u32) -> BitWords {
    let mut words = [0; 12];
    for k in [0, 1, n + 2, n + 3] {
        flip(&mut words, k);
    }
    for k in 2..n + 2 {
        if rng.coin() {
            flip(&mut words, k);
        }
    }
    words
}

/// A right frame of n days, and the same with one bit changed at each boundary, held to n days and up to two more or
/// fewer.
fn ask_frames(tally: &mut Tally, rng: &mut Rng, n: u32) {
    let right = framed_words(rng, n);
    let edges = [0, 1, 2, 31, 32, n, n + 1, n + 2, n + 3, n + 4, n + 5, 382, 383, rng.below(BITS)];
    for k in edges.iter().map(|k| Some(*k)).chain([None]) {
        let mut words = right;
        if let Some(k) = k.filter(|k| *k < BITS) {
            flip(&mut words, k);
        }
        let bytes = bit_bytes(&[words]);
        for days in n.saturating_sub(2)..=n + 2 {
            tally.ask(about(What::Framed, &bytes, &[days]));
        }
        tally.ask(about(What::SomeDay, &bytes, &[n]));
    }
}

/// Some day of n: none but the last, none but the one after, none but a frame bit.
fn ask_last_days(tally: &mut Tally) {
    for n in 0..=MOST_PERIOD_DAYS {
        for k in [1, n + 1, n + 2] {
            let mut words = [0; 12];
            flip(&mut words, k);
            tally.ask(about(What::SomeDay, &bit_bytes(&[words]), &[n]));
        }
    }
}

fn ask_each_bit(tally: &mut Tally, rng: &mut Rng) {
    let bytes = bit_bytes(&[random_words(rng)]);
    for k in (0..=BITS + 40).chain([u32::MAX - 2, u32::MAX]) {
        tally.ask(about(What::Bit, &bytes, &[k]));
        tally.ask(about(What::Runs, &bytes, &[k]));
        tally.ask(about(What::Framed, &bytes, &[k]));
        tally.ask(about(What::SomeDay, &bytes, &[k]));
    }
}

fn ask_sets(tally: &mut Tally, a: BitWords, b: BitWords) {
    let bytes = bit_bytes(&[a, b]);
    for what in [What::Either, What::Both, What::Without] {
        tally.ask(about(what, &bytes, &[]));
    }
}

/// A line with 96 hex digits; now and then one is another byte, or the line ends early.
fn ask_line(tally: &mut Tally, rng: &mut Rng) {
    let digits = bit_digits(&random_words(rng));
    let mut line = format!("{:06} {}", rng.below(1_000_000), digits).into_bytes();
    match rng.below(4) {
        0 => {
            let at = rng.index(line.len());
            line[at] = rng.below(256) as u8;
        }
        1 => line.truncate(rng.index(104)),
        _ => {}
    }
    tally.ask(about(What::Bits, &line, &[]));
    tally.ask(about(What::Form, &line, &[1]));
}

pub fn ask(tally: &mut Tally, rng: &mut Rng, rounds: u32) {
    tally.ask(about(What::NoBits, &[], &[]));
    tally.ask(about(What::AllBits, &[], &[]));
    for n in 0..=MOST_PERIOD_DAYS {
        ask_frames(tally, rng, n);
    }
    ask_last_days(tally);
    for fill in [0, u32::MAX] {
        ask_sets(tally, [fill; 12], [0; 12]);
        ask_sets(tally, [fill; 12], [u32::MAX; 12]);
    }
    for _ in 0..rounds / 10_000 + 1 {
        ask_each_bit(tally, rng);
    }
    for _ in 0..rounds / 50 {
        ask_sets(tally, random_words(rng), random_words(rng));
        ask_line(tally, rng);
    }
}
