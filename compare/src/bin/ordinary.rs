//! Compares the ordinary loader (docs/ordinary-loader) with the independent reader on generated deliveries: answers and every
//! word lent; and of accepted ones the ordinary program's questions. It links no archive.
//!
//!     ordinary SEED COUNT [FIRST]
//!
//! `Program::run` says how it ends.

use compare::boundary::Boundary;
use compare::differ::{compare_load, Named, Program};
use compare::reader::Combination;
use ordinary_loader::{load, Files, Refusal};

#[path = "../ordinary.rs"]
mod ordinary;

/// The ordinary loader; it is only asked for loads.
struct Ordinary;

/// "64, and four for each line of BITFELD, BAHNHOF and UMSTEIGB" (document 02, No. 13)
fn helper_words(files: &[&[u8]]) -> usize {
    64 + files.iter().map(|file| 4 * file.split_inclusive(|byte| *byte == b'\n').count()).sum::<usize>()
}

/// It has maps of its own. What a loader does with helper words is said here, so that the reader has somebody to differ from.
impl Boundary for Ordinary {
    fn load(&self, files: [&[u8]; 6], table: &mut [u32], helper: &mut [u32]) -> [u32; 5] {
        let needed = helper_words(&files[1..4]);
        let is_short = helper.len() < needed;
        let [eckdaten, bitfeld, bahnhof, umsteigb, fplan, zugart] = files;
        let files = Files { eckdaten, bitfeld, bahnhof, umsteigb, fplan, zugart };
        let answer = match load(&files, if is_short { &mut [] } else { table }) {
            Ok(words) => [0, 0, 0, words, 0],
            Err(Refusal { number, file, line, column, needed }) => [number, file, line, needed, column],
        };
        match answer {
            [1, ..] => answer,
            _ if is_short => [51, 0, 0, needed as u32, 0],
            _ => {
                helper[..needed].fill(0);
                answer
            }
        }
    }

    fn day(&self, _: &[u32], _: [u32; 3], _: u32) -> [u32; 2] {
        unreachable!()
    }

    fn interchange(&self, _: &[u32], _: u32, _: [u32; 2]) -> [u32; 2] {
        unreachable!()
    }

    fn interchange_between(&self, _: &[u32], _: u32, _: [u32; 2]) -> [u32; 2] {
        unreachable!()
    }

    fn stop_name(&self, _: &[u32], _: &[u8], _: u32, _: [u32; 2]) -> [u32; 3] {
        unreachable!()
    }

    fn walk(&self, _: &[u32], _: u32, _: u32, _: [u32; 3], _: &mut [u32]) -> [u32; 3] {
        unreachable!()
    }

    fn combine(&self, _: Combination, _: u32, _: &[u32], _: &[u32], _: &mut [u32]) -> [u32; 1] {
        unreachable!()
    }

    fn complement(&self, _: u32, _: &[u32], _: &mut [u32]) -> [u32; 1] {
        unreachable!()
    }

    fn day_count(&self, _: u32, _: &[u32]) -> [u32; 2] {
        unreachable!()
    }
}

const ORDINARY: Program = Program { name: "ordinary", command: "tools/host.sh ordinary", calls: &["load"] };

fn main() {
    let boundaries: [Named; 1] = [("the ordinary loader", &Ordinary)];
    ORDINARY.run(|seed, index, tally| {
        ordinary::compare_questions(seed, index);
        compare_load(seed, index, &boundaries, tally)
    });
}
