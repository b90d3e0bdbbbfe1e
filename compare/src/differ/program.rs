//! What the programs that compare case by case share: their arguments, the marks on the way, and the end.

use std::path::Path;
use std::process::exit;

use super::{report, Compared, Tally};

/// Indexes written on the way.
const MARKS: u64 = 20;

/// So many cases reach every kind of answer.
const REACHING: u64 = 20_000;

/// A program `NAME SEED COUNT [FIRST]`.
pub struct Program {
    pub name: &'static str,
    /// The command that makes and runs it, with these arguments.
    pub command: &'static str,
    /// The calls that it makes.
    pub calls: &'static [&'static str],
}

impl Program {
    /// Compares COUNT cases of SEED from case FIRST (0) on, and prints how often each answer came. Ends with `NAME: N
    /// cases, 0 differences`, status 0; or tells the first case that differs, status 1. From 20,000 cases on, every
    /// kind of answer must have come, and of a million every column that a refusal 4 can name 20 times.
    ///
    /// On the way about twenty indexes are written to stderr, in one line: if a boundary ends the program, the case is
    /// one from the last index on, and fewer cases from there (FIRST) find it.
    pub fn run(&self, mut compare: impl FnMut(u64, u64, &mut Tally) -> Compared<()>) {
        let (seed, count, first) = self.arguments();
        let mut tally = Tally::default();
        eprint!("{}: seed {}, at case", self.name, seed);
        for index in first..first + count {
            if (index - first) % (count / MARKS).max(1) == 0 {
                eprint!(" {}", index);
            }
            if let Err(difference) = compare(seed, index, &mut tally) {
                eprintln!();
                let below = Path::new("target").join(self.name);
                println!("{}", report(seed, index, &difference, &below, self.command));
                exit(1);
            }
        }
        eprintln!();
        print!("{}", tally);
        let missing = tally.missing(self.calls);
        if count >= REACHING && !missing.is_empty() {
            println!("never came: {}", missing.join(", "));
            exit(1);
        }
        let strange = tally.columns.strange(count);
        if !strange.is_empty() {
            println!("{}", strange.join(", "));
            exit(1);
        }
        println!("{}: {} cases, 0 differences", self.name, count);
    }

    fn arguments(&self) -> (u64, u64, u64) {
        let numbers: Option<Vec<u64>> = std::env::args().skip(1).map(|text| text.parse().ok()).collect();
        match numbers.as_deref() {
            Some([seed, count]) => (*seed, *count, 0),
            Some([seed, count, first]) => (*seed, *count, *first),
            _ => {
                eprintln!("{} SEED COUNT [FIRST]", self.name);
                exit(2);
            }
        }
    }
}
