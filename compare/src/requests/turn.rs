//! What the comparisons share: a case with its generator and memory, how often each answer came, a difference told so that it can be run again, and the program around.

use std::collections::BTreeMap;
use std::fs;
use std::path::Path;
use std::process::exit;

use crate::differ::rng_of;
use crate::edge::{Edges, Given, Left, Side};
use crate::generate::Rng;

/// How often each answer came, by name.
#[derive(Default)]
pub struct Counts(BTreeMap<String, u64>);

impl Counts {
    pub fn count(&mut self, answer: impl Into<String>) {
        *self.0.entry(answer.into()).or_insert(0) += 1;
    }

    pub fn times(&self, answer: &str) -> u64 {
        self.0.get(answer).copied().unwrap_or(0)
    }

    pub fn missing<'a>(&self, answers: &[&'a str]) -> Vec<&'a str> {
        answers.iter().copied().filter(|answer| self.times(answer) == 0).collect()
    }
}

/// A call that was answered otherwise than it must be, with what it was given.
#[derive(Debug)]
pub struct Difference {
    pub text: String,
    given: Vec<(&'static str, Vec<u8>)>,
}

/// One case: its generator, memory for calls, and the counts of all cases.
pub struct Turn<'a> {
    pub rng: Rng,
    pub edges: &'a mut Edges,
    pub counts: &'a mut Counts,
}

/// Words that are lent, no two alike.
pub fn lent_words(room: usize) -> Vec<u32> {
    (0..room as u32).map(|at| 0x8000_0000 | at.wrapping_mul(0x9E37_79B1) >> 1).collect()
}

/// Bytes that are lent.
pub fn lent_bytes(room: usize) -> Vec<u8> {
    (0..room).map(|at| (at.wrapping_mul(37) ^ 0x5A) as u8).collect()
}

impl Turn<'_> {
    pub fn side(&mut self) -> Side {
        if self.rng.coin() {
            Side::Behind
        } else {
            Side::Front
        }
    }

    /// Makes a call at the edges, on one side.
    pub fn words<A>(
        &mut self,
        given: Given<'_>,
        lent: &[u32],
        call: impl FnOnce(Given<'_>, &mut [u32]) -> A,
    ) -> Left<A, u32> {
        let side = self.side();
        self.edges.words(given, lent, side, call)
    }

    pub fn bytes<A>(
        &mut self,
        given: Given<'_>,
        lent: &[u8],
        call: impl FnOnce(Given<'_>, &mut [u8]) -> A,
    ) -> Left<A, u8> {
        let side = self.side();
        self.edges.bytes(given, lent, side, call)
    }
}

impl Difference {
    pub fn new(text: String, given: Given<'_>) -> Box<Difference> {
        let lines = |words: &[u32]| words.iter().map(|word| format!("{}\n", word)).collect::<String>().into_bytes();
        let given = vec![
            ("TABLE", lines(given.table)),
            ("INDEX", lines(given.index)),
            ("PARTS", lines(given.parts)),
            ("BYTES", given.bytes.to_vec()),
        ];
        Box::new(Difference { text, given })
    }

    /// Of two deliveries.
    pub fn of_files(text: String, files: &[Vec<u8>; 6], fplan: &[u8]) -> Box<Difference> {
        let mut given: Vec<(&'static str, Vec<u8>)> = crate::files::NAMES.into_iter().zip(files.to_vec()).collect();
        given.push(("FPLAN-AFTER", fplan.to_vec()));
        Box::new(Difference { text, given })
    }

    fn write(&self, directory: &Path) -> std::io::Result<()> {
        fs::create_dir_all(directory)?;
        self.given.iter().try_for_each(|(name, bytes)| fs::write(directory.join(name), bytes))
    }
}

/// What a call left, told where it differs.
pub fn told<A: std::fmt::Debug + PartialEq, T: std::fmt::Debug + PartialEq>(
    expected: &Left<A, T>,
    found: &Left<A, T>,
) -> String {
    let mut text = format!("the answer is {:?}, the reader's {:?}", found.answer, expected.answer);
    if !found.is_kept {
        text += "; words outside of what was lent have changed";
    }
    let unlike = expected.lent.iter().zip(&found.lent).enumerate().filter(|(_, (a, b))| a != b).take(4);
    for (at, (expected, found)) in unlike {
        text += &format!("; item {} is {:?}, the reader's {:?}", at, found, expected);
    }
    text
}

/// So many cases reach every kind of answer.
const REACHING: u64 = 20_000;

/// One case.
pub fn case<F>(
    seed: u64,
    index: u64,
    edges: &mut Edges,
    counts: &mut Counts,
    mut compare: F,
) -> Result<(), Box<Difference>>
where
    F: FnMut(&mut Turn<'_>, u64) -> Result<(), Box<Difference>>,
{
    compare(&mut Turn { rng: rng_of(seed, index), edges, counts }, index)
}

/// Runs a program `NAME SEED COUNT [FIRST]`, which compares COUNT cases of SEED from case FIRST (0) on: prints how often each answer came and ends with `NAME: N cases, 0 differences`; or tells the first case that differs,
/// status 1. From 20,000 cases on each of these answers has to come.
pub fn run<F>(name: &str, answers: &[&str], mut compare: F)
where
    F: FnMut(&mut Turn<'_>, u64) -> Result<(), Box<Difference>>,
{
    let numbers: Option<Vec<u64>> = std::env::args().skip(1).map(|text| text.parse().ok()).collect();
    let (seed, count, first) = match numbers.as_deref() {
        Some([seed, count]) => (*seed, *count, 0),
        Some([seed, count, first]) => (*seed, *count, *first),
        _ => {
            eprintln!("{} SEED COUNT [FIRST]", name);
            exit(2);
        }
    };
    let (mut edges, mut counts) = (Edges::default(), Counts::default());
    for index in first..first + count {
        if let Err(difference) = case(seed, index, &mut edges, &mut counts, &mut compare) {
            let directory = Path::new("target").join(name).join(format!("{}-{}", seed, index));
            println!("case {} of seed {} differs: {}", index, seed, difference.text);
            match difference.write(&directory) {
                Ok(()) => println!("what was given is in {}", directory.display()),
                Err(error) => println!("what was given could not be written: {}", error),
            }
            println!("run again: tools/requests.sh {} {} 1 {}", name, seed, index);
            exit(1);
        }
    }
    for (answer, times) in &counts.0 {
        println!("  {:<44} {:>10}", answer, times);
    }
    let missing = counts.missing(answers);
    if count >= REACHING && !missing.is_empty() {
        println!("never came: {}", missing.join(", "));
        exit(1);
    }
    println!("{}: {} cases, 0 differences", name, count);
}
