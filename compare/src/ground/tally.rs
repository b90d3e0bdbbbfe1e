//! Compares answers, and notes which kinds of answers came and which bytes stood in which columns.

use super::expected;
use super::question::{Answer, Question, What, LINE_KINDS, WHATS};

pub type Library = fn(&Question) -> Answer;

/// Differences of one sort of question that are printed; all are counted.
const SHOWN: u64 = 3;

/// A question with a longer text is asked again by its part and index; a command line has an end.
const LONGEST: usize = 2_000;

/// What the random inputs are drawn from, and about how many they are.
#[derive(Clone, Copy, Debug)]
pub struct Draw {
    pub seed: u64,
    pub rounds: u32,
}

/// The columns of each line kind in which every byte value must be met: the named ones and two more.
const FORM_COLUMNS: [usize; 10] = [12, 105, 64, 16, 61, 61, 61, 61, 61, 26];

/// A question of one sort: a name, how often each kind of answer came, and the bytes met in each of its columns.
struct Sort {
    name: String,
    kinds: &'static [&'static str],
    times: Vec<u64>,
    met: Vec<[bool; 256]>,
    /// The columns where a form was found broken.
    broken: Vec<bool>,
    differences: u64,
}

impl Sort {
    fn new(name: String, kinds: &'static [&'static str], columns: usize) -> Sort {
        let (times, met, broken) = (vec![0; kinds.len()], vec![[false; 256]; columns], vec![false; 200]);
        Sort { name, kinds, times, met, broken, differences: 0 }
    }

    fn note(&mut self, kind: usize, field: &[u8]) {
        self.times[kind] += 1;
        for (met, byte) in self.met.iter_mut().zip(field) {
            met[usize::from(*byte)] = true;
        }
    }

    fn line(&self) -> String {
        let times: Vec<String> =
            self.kinds.iter().zip(&self.times).map(|(kind, times)| format!("{} {}", kind, times)).collect();
        let broken = self.broken.iter().filter(|broken| **broken).count();
        let places = if broken == 0 { String::new() } else { format!(" (in {} columns)", broken) };
        let wrong = if self.differences == 0 { String::new() } else { format!("; {} differences", self.differences) };
        format!("  {:<16} {}{}{}", self.name, times.join(", "), places, wrong)
    }

    /// A kind of answer that never came, or a byte value that a column never had.
    fn gaps(&self) -> Vec<String> {
        let kinds = self.kinds.iter().zip(&self.times).filter(|(_, times)| **times == 0);
        let mut gaps: Vec<String> = kinds.map(|(kind, _)| format!("{}: no answer {}", self.name, kind)).collect();
        for (at, met) in self.met.iter().enumerate() {
            let missing = met.iter().filter(|met| !**met).count();
            if missing > 0 {
                gaps.push(format!("{}: {} byte values not met in column {}", self.name, missing, at + 1));
            }
        }
        gaps
    }
}

pub struct Tally {
    library: Library,
    draw: Draw,
    part: &'static str,
    index: u64,
    /// The one question that is asked, by part and index; else all are.
    only: Option<(String, u64)>,
    cases: u64,
    sorts: Vec<Sort>,
}

impl Tally {
    pub fn new(library: Library, draw: Draw) -> Tally {
        let mut sorts = Vec::new();
        for (what, name, kinds) in WHATS {
            match what {
                What::Form => {
                    let forms = LINE_KINDS.iter().zip(FORM_COLUMNS);
                    sorts.extend(forms.map(|(kind, columns)| Sort::new(format!("form {}", kind), kinds, columns)));
                }
                What::Every => {
                    let classes = ["digits", "hex", "filled", "byte"].iter();
                    sorts.extend(classes.map(|class| Sort::new(format!("every {}", class), kinds, 9)));
                }
                _ => sorts.push(Sort::new(name.to_string(), kinds, field_columns(what))),
            }
        }
        Tally { library, draw, part: "", index: 0, only: None, cases: 0, sorts }
    }

    /// Asks this question alone.
    pub fn only(self, part: &str, index: u64) -> Tally {
        Tally { only: Some((part.to_string(), index)), ..self }
    }

    pub fn begin(&mut self, part: &'static str) -> Draw {
        self.part = part;
        self.index = 0;
        self.draw
    }

    /// Asks the library and the reader.
    pub fn ask(&mut self, question: Question) {
        self.take(&question, || expected::answer(&question));
    }

    /// Asks the library where the reader's answer is known.
    pub fn hold(&mut self, question: Question, expected: Answer) {
        self.take(&question, || expected);
    }

    /// Compares the answers, unless another question alone is asked.
    fn take(&mut self, question: &Question, expected: impl FnOnce() -> Answer) {
        let asked = self.only.as_ref().map_or(true, |(part, index)| part == self.part && *index == self.index);
        if asked {
            self.compare(question, expected());
        }
        self.index += 1;
    }

    fn compare(&mut self, question: &Question, expected: Answer) {
        let got = (self.library)(question);
        let at = sort_of(question);
        if got != expected {
            self.sorts[at].differences += 1;
            if self.sorts[at].differences <= SHOWN {
                self.show(question, &expected, &got);
            }
        }
        let sort = &mut self.sorts[at];
        sort.note(question.kind_of(&expected), field(question));
        if question.what == What::Form && expected[0] != 0 {
            sort.broken[(expected[0] as usize).min(199)] = true;
        }
        self.cases += 1;
    }

    /// Prints a difference, with the command that asks the question again.
    fn show(&self, question: &Question, expected: &Answer, got: &Answer) {
        let Draw { seed, rounds } = self.draw;
        println!("difference: seed {} part {} index {}", seed, self.part, self.index);
        println!("  reader  {:?}\n  library {:?}", expected, got);
        let again = match question.text() {
            text if text.len() <= LONGEST => format!("again {}", text),
            _ => format!("at {} {} {} {}", seed, rounds, self.part, self.index),
        };
        println!("  ask again: tools/host.sh run probe ground {}", again);
    }

    pub fn cases(&self) -> u64 {
        self.cases
    }

    pub fn differences(&self) -> u64 {
        self.sorts.iter().map(|sort| sort.differences).sum()
    }

    /// What the questions left out.
    pub fn gaps(&self) -> Vec<String> {
        self.sorts.iter().flat_map(Sort::gaps).collect()
    }

    /// The histogram, the gaps and the verdict; whether there is neither a gap nor a difference.
    pub fn report(&self) -> bool {
        for sort in &self.sorts {
            println!("{}", sort.line());
        }
        let columns: usize = self.sorts.iter().map(|sort| sort.met.len()).sum();
        let gaps = self.gaps();
        if gaps.is_empty() {
            println!("every kind of answer came; every byte value was met in each of {} columns of fields", columns);
        }
        for gap in &gaps {
            println!("gap: {}", gap);
        }
        println!("ground: {} cases, {} differences", self.cases, self.differences());
        gaps.is_empty() && self.differences() == 0
    }
}

/// The columns of a field in which every byte value must be met.
fn field_columns(what: What) -> usize {
    match what {
        What::Skips | What::Column => 1,
        What::Kind => 3,
        What::Count => 2,
        What::Time | What::Detail => 6,
        What::RangeEnd => 7,
        What::Number => 9,
        What::Date => 10,
        What::Bits => 96,
        _ => 0,
    }
}

/// The bytes of the field that is asked about, as far as the line has them.
fn field<'a>(question: &Question<'a>) -> &'a [u8] {
    let [a, b, ..] = question.numbers;
    let (from, to) = match question.what {
        What::Number | What::Count | What::Every | What::Time | What::RangeEnd | What::Detail => {
            (a as usize, b as usize)
        }
        What::Column => (a as usize, a as usize),
        What::Bits => (8, 103),
        _ => (1, usize::MAX),
    };
    question.bytes.get(from - 1..to.min(question.bytes.len())).unwrap_or(&[])
}

/// The place of a question's sort: `WHATS` with `Every` by class and `Form` by line kind.
fn sort_of(question: &Question) -> usize {
    let what = question.what as usize;
    match question.what {
        What::Every => what + question.numbers[2] as usize,
        What::Form => what + 3 + question.numbers[0] as usize,
        _ if what < What::Every as usize => what,
        _ if what < What::Form as usize => what + 3,
        _ => what + 3 + LINE_KINDS.len() - 1,
    }
}
