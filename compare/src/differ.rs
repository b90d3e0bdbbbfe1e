//! The comparison of boundaries with the independent reader: the same calls to all, answers and every word lent.
//!
//! A case is a seed and an index: one delivery, questions on the table that it gives, on bent tables, and on words of no
//! sense, names of its stops among them, and arithmetic on operating days. It depends on nothing before it, so that a failing
//! case runs again alone.

mod cases;
mod columns;
mod lent;
mod program;
mod report;
mod tally;

pub use cases::{rng_of, senseless, OVERSIZED_EVERY};
pub use columns::Columns;
pub use lent::{Call, Outcome};
pub use program::Program;
pub use report::report;
pub use tally::{Tally, CALLS};

use crate::boundary::{Boundary, Reader};
use crate::generate::{arithmetic, damaged_table, name_question, names_bent, other_bytes, question, Question, Rng};
use cases::{delivery, other_room};

/// A boundary to compare, and what it is called in a report.
pub type Named<'a> = (&'static str, &'a dyn Boundary);

const QUESTIONS_ON_TABLE: u32 = 6;
const QUESTIONS_ON_BENT: u32 = 8;
const NAMES: u32 = 6;
const ARITHMETIC: u32 = 8;

/// The first call of a case that a boundary answered otherwise than the reader.
pub struct Difference {
    pub by: &'static str,
    pub call: Call,
    pub expected: Outcome,
    pub found: Outcome,
}

/// Boxed, since it holds whole files.
pub type Compared<T> = Result<T, Box<Difference>>;

/// Compares the load of one case, and counts the reader's answer.
pub fn compare_load(seed: u64, index: u64, boundaries: &[Named], tally: &mut Tally) -> Compared<()> {
    let case = delivery(&mut rng_of(seed, index), index);
    Run { boundaries, tally }.call(Call::load(case)).map(|_| ())
}

/// Compares all calls of one case, and counts the reader's answers.
pub fn compare(seed: u64, index: u64, boundaries: &[Named], tally: &mut Tally) -> Compared<()> {
    let mut rng = rng_of(seed, index);
    let mut run = Run { boundaries, tally };
    let case = delivery(&mut rng, index);
    let bahnhof = case.files[2].clone();
    let loaded = run.call(Call::load(case))?;
    run.ask_all(&mut rng, &loaded)?;
    run.ask_names(&mut rng, &loaded, &bahnhof)?;
    for _ in 0..ARITHMETIC {
        run.call(Call::Days(arithmetic(&mut rng)))?;
    }
    Ok(())
}

struct Run<'a, 'b> {
    boundaries: &'a [Named<'b>],
    tally: &'a mut Tally,
}

impl Run<'_, '_> {
    /// Makes a call by the reader and by each boundary; gives the reader's outcome.
    fn call(&mut self, call: Call) -> Compared<Outcome> {
        let expected = call.outcome(&Reader);
        self.tally.count(&call, &expected);
        for (by, boundary) in self.boundaries {
            let found = call.outcome(*boundary);
            if found != expected {
                return Err(Box::new(Difference { by, call, expected, found }));
            }
        }
        Ok(expected)
    }

    /// Questions on what a load left.
    fn ask_all(&mut self, rng: &mut Rng, loaded: &Outcome) -> Compared<()> {
        if loaded.answer[0] != 0 {
            return self.ask(rng, senseless);
        }
        for _ in 0..QUESTIONS_ON_TABLE {
            self.ask(rng, |_| loaded.lent().to_vec())?;
        }
        for _ in 0..QUESTIONS_ON_BENT {
            self.ask(rng, |rng| damaged_table(rng, loaded.lent()))?;
        }
        Ok(())
    }

    /// Questions for names on what a load left, as it is and bent, and on BAHNHOF as it was loaded or otherwise.
    fn ask_names(&mut self, rng: &mut Rng, loaded: &Outcome, bahnhof: &[u8]) -> Compared<()> {
        if loaded.answer[0] != 0 {
            let table = senseless(rng);
            let question = name_question(rng, &table);
            return self.call(Call::Name { bahnhof: other_bytes(rng, &table, b"A"), table, question }).map(|_| ());
        }
        for turn in 0..NAMES {
            let table = match turn % 3 {
                0 => loaded.lent().to_vec(),
                1 => names_bent(rng, loaded.lent()),
                _ => damaged_table(rng, loaded.lent()),
            };
            let question = name_question(rng, &table);
            self.call(Call::Name { bahnhof: other_bytes(rng, &table, bahnhof), table, question })?;
        }
        Ok(())
    }

    /// A question on words, and if it was a walk that has rows, the same walk with another room.
    fn ask(&mut self, rng: &mut Rng, words: impl FnOnce(&mut Rng) -> Vec<u32>) -> Compared<()> {
        let table = words(rng);
        let question = question(rng, &table);
        let outcome = self.call(Call::Ask { table: table.clone(), question })?;
        if let Question::Walk { service, repeat, date, .. } = question {
            if let Some(room) = other_room(rng, &outcome.answer) {
                let question = Question::Walk { service, repeat, date, room };
                self.call(Call::Ask { table, question })?;
            }
        }
        Ok(())
    }
}
