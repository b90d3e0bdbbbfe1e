//! Whole files cut into lines.

use super::question::{about, three, What};
use super::tally::Tally;
use crate::generate::{mutated, Rng, Size};
use crate::reader::lines::lines;

/// Every file of up to six bytes out of these, from each place and one past the end.
fn ask_small_files(tally: &mut Tally) {
    let bytes = *b"\n\r x";
    for length in 0..=6 {
        for number in 0..4usize.pow(length) {
            let file: Vec<u8> = (0..length).map(|at| bytes[number / 4usize.pow(at) % 4]).collect();
            for at in 0..=length + 1 {
                tally.ask(about(What::Step, &file, &[at, number as u32 + 1]));
            }
        }
    }
}

/// Each line of a file; the next starts where the reader's next line does, or at the file's end.
fn ask_walk(tally: &mut Tally, file: &[u8]) {
    let found = lines(file);
    for (i, line) in found.iter().enumerate() {
        let stop = line.start + line.text.len();
        let next = found.get(i + 1).map_or(file.len(), |next| next.start);
        let expected = three(stop as u32, next as u32, line.no + 1);
        tally.hold(about(What::Step, file, &[line.start as u32, line.no]), expected);
    }
}

/// Bytes of all values, with line ends among them.
fn random_file(rng: &mut Rng, length: usize) -> Vec<u8> {
    let rare = rng.between(1, 60);
    let byte = |rng: &mut Rng| if rng.once_in(rare) { rng.pick(b"\n\n\r") } else { rng.below(256) as u8 };
    (0..length).map(|_| byte(rng)).collect()
}

/// Line numbers at the end of their range.
fn ask_numbers(tally: &mut Tally) {
    for no in [0, 1, 16_777_216, 1 << 31, u32::MAX - 1, u32::MAX] {
        tally.ask(about(What::Step, b"a\nb\n", &[2, no]));
    }
}

pub fn ask(tally: &mut Tally, rng: &mut Rng, rounds: u32) {
    ask_small_files(tally);
    ask_numbers(tally);
    for _ in 0..rounds / 1_000 {
        for file in mutated(rng, Size::Small).slices() {
            ask_walk(tally, file);
        }
        let length = rng.index(2_000);
        let file = random_file(rng, length);
        ask_walk(tally, &file);
        let at = rng.index(length + 1) as u32;
        tally.ask(about(What::Step, &file, &[at, rng.below(u32::MAX)]));
    }
    ask_walk(tally, &random_file(rng, 100_000));
    ask_walk(tally, &vec![b'x'; 1_000_000]);
}
