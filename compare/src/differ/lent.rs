//! One call of the boundary, with words lent in a pattern, and all that it left.

use crate::boundary::Boundary;
use crate::generate::{Arithmetic, Case, NameQuestion, Question};

/// Words on each side of the words lent that no call may touch.
const GUARD: usize = 16;

/// A call and all that it reads.
#[derive(Clone, Debug)]
pub enum Call {
    /// `helper` has the helper words as they are lent.
    Load {
        files: [Vec<u8>; 6],
        room: usize,
        helper: Vec<u32>,
    },
    Ask {
        table: Vec<u32>,
        question: Question,
    },
    Name {
        table: Vec<u32>,
        bahnhof: Vec<u8>,
        question: NameQuestion,
    },
    Days(Arithmetic),
}

/// The answer's numbers, the words lent and the helper words, both with their guards, and whether all that was only read is as it
/// was.
#[derive(Clone, Debug, PartialEq, Eq)]
pub struct Outcome {
    pub answer: Vec<u32>,
    words: Vec<u32>,
    helper: Vec<u32>,
    read_only: bool,
}

/// No two words alike, and none that a table or row is likely to hold.
fn pattern(at: usize) -> u32 {
    0x8000_0000 | (at as u32).wrapping_mul(0x9E37_79B1) >> 1
}

fn with_guards(room: usize) -> Vec<u32> {
    (0..room + 2 * GUARD).map(pattern).collect()
}

/// These words between guards.
fn guarded(words: &[u32]) -> Vec<u32> {
    let mut all = with_guards(words.len());
    lent(&mut all).copy_from_slice(words);
    all
}

fn lent(words: &mut [u32]) -> &mut [u32] {
    let end = words.len() - GUARD;
    &mut words[GUARD..end]
}

impl Call {
    /// The load of a case.
    pub fn load(case: Case) -> Call {
        Call::Load { files: case.files, room: case.room, helper: case.helper }
    }

    /// The words that the call lends; a question but a walk lends none, and so a count of days.
    fn room(&self) -> usize {
        match self {
            Call::Load { room, .. } => *room,
            Call::Ask { question: Question::Walk { room, .. }, .. } => *room,
            Call::Days(Arithmetic::Combine { room, .. } | Arithmetic::Complement { room, .. }) => *room,
            Call::Ask { .. } | Call::Name { .. } | Call::Days(Arithmetic::Count { .. }) => 0,
        }
    }

    /// The helper words that the call lends; only a load does.
    fn helper(&self) -> &[u32] {
        match self {
            Call::Load { helper, .. } => helper,
            Call::Ask { .. } | Call::Name { .. } | Call::Days(_) => &[],
        }
    }

    /// Makes the call.
    pub fn outcome(&self, boundary: &dyn Boundary) -> Outcome {
        let (mut words, mut helper) = (with_guards(self.room()), guarded(self.helper()));
        let lent_words = lent(&mut words);
        let (answer, read_only) = match self {
            Call::Load { files, .. } => loaded(boundary, files, lent_words, lent(&mut helper)),
            Call::Ask { table, question } => asked(boundary, table, *question, lent_words),
            Call::Name { table, bahnhof, question } => named(boundary, table, bahnhof, *question),
            Call::Days(arithmetic) => reckoned(boundary, arithmetic, lent_words),
        };
        Outcome { answer, words, helper, read_only }
    }
}

fn loaded(boundary: &dyn Boundary, files: &[Vec<u8>; 6], lent: &mut [u32], helper: &mut [u32]) -> (Vec<u32>, bool) {
    let given = files.clone();
    let [a, b, c, d, e, f] = &given;
    let answer = boundary.load([a, b, c, d, e, f], lent, helper);
    (answer.to_vec(), given == *files)
}

fn asked(boundary: &dyn Boundary, table: &[u32], question: Question, lent: &mut [u32]) -> (Vec<u32>, bool) {
    let given = table.to_vec();
    let answer = match question {
        Question::Day { date, bitfield } => boundary.day(&given, date, bitfield).to_vec(),
        Question::Interchange { stop, classes } => boundary.interchange(&given, stop, classes).to_vec(),
        Question::Between { stop, categories } => boundary.interchange_between(&given, stop, categories).to_vec(),
        Question::Walk { service, repeat, date, .. } => boundary.walk(&given, service, repeat, date, lent).to_vec(),
    };
    (answer, given == table)
}

fn named(boundary: &dyn Boundary, table: &[u32], bahnhof: &[u8], question: NameQuestion) -> (Vec<u32>, bool) {
    let (given, bytes) = (table.to_vec(), bahnhof.to_vec());
    let NameQuestion { stop, language, kind } = question;
    let answer = boundary.stop_name(&given, &bytes, stop, [language, kind]);
    (answer.to_vec(), given == table && bytes == bahnhof)
}

fn reckoned(boundary: &dyn Boundary, arithmetic: &Arithmetic, lent: &mut [u32]) -> (Vec<u32>, bool) {
    let given = arithmetic.clone();
    let answer = match &given {
        Arithmetic::Combine { of, n, first, second, .. } => boundary.combine(*of, *n, first, second, lent).to_vec(),
        Arithmetic::Complement { n, field, .. } => boundary.complement(*n, field, lent).to_vec(),
        Arithmetic::Count { n, field } => boundary.day_count(*n, field).to_vec(),
    };
    (answer, given == *arithmetic)
}

impl Outcome {
    /// The words lent, as the call left them.
    pub fn lent(&self) -> &[u32] {
        &self.words[GUARD..self.words.len() - GUARD]
    }

    /// How another outcome of the same call differs, a line each.
    pub fn differs(&self, other: &Outcome) -> Vec<String> {
        let mut lines = Vec::new();
        if self.answer != other.answer {
            lines.push(format!("the answer is {:?}, the reader's {:?}", other.answer, self.answer));
        }
        if !other.read_only {
            lines.push("bytes or words that were only to be read have changed".to_string());
        }
        lines.extend(unlike("word", &self.words, &other.words));
        lines.extend(unlike("helper word", &self.helper, &other.helper));
        lines
    }
}

/// How words with their guards differ from the reader's, the first eight.
fn unlike(name: &str, reader: &[u32], other: &[u32]) -> Vec<String> {
    let places = (0..reader.len()).filter(|at| reader[*at] != other[*at]);
    let told = |at: usize| {
        let place = place(at, reader.len() - 2 * GUARD);
        format!("{} {} is {}, the reader's {}", name, place, other[at], reader[at])
    };
    places.take(8).map(told).collect()
}

/// A word by its place among those lent; the guards are outside.
fn place(at: usize, room: usize) -> String {
    let place = at as i64 - GUARD as i64;
    let side = if (0..room as i64).contains(&place) { "of" } else { "outside" };
    format!("{} {} the {} lent", place, side, room)
}
