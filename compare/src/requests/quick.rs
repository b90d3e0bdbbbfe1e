//! Quick questions beside the plain ones: of a table and its own index, under any mark, exactly the plain answer and rows. Of other index words a question may be refused; but what it answers
//! comes from a record of these words that has the number asked for.

use super::possible::{Possible, REFUSALS};
use super::tables::{beside, loaded, otherwise_marked, turned};
use super::turn::{lent_words, told};
use super::{Difference, Turn};
use crate::boundary::{Boundary, Reader};
use crate::edge::{Given, Left};
use crate::functions::Quick;
use crate::generate::boards::damage_word;
use crate::generate::{name_question, other_bytes, question, NameQuestion, Question};
use crate::layout::ROW_WORDS;
use crate::reader::index_words;

pub const ANSWERS: &[&str] = &[
    "day, answered",
    "day, refused 22",
    "day, refused 23",
    "day, refused 28",
    "interchange, answered",
    "interchange, refused 26",
    "interchange, refused 27",
    "between, answered",
    "between, refused 27",
    "between, refused 38",
    "walk, answered",
    "walk, refused 22",
    "walk, refused 23",
    "walk, refused 24",
    "walk, refused 25",
    "walk, refused 29",
    "walk, refused 31",
    "walk, refused 33",
    "walk, refused 34",
    "walk, refused 35",
    "walk, refused 36",
    "name, answered",
    "name, refused 27",
    "name, refused 39",
    "name, refused 40",
    "name, refused 41",
    "by another mark",
    "other index, answered",
    "other index, refused 43",
    "no table, refused 21",
];

const QUESTIONS: u32 = 24;

/// Questions on a delivery's table and bent ones; in every fiftieth case by an index damaged in each word.
pub fn compare(turn: &mut Turn<'_>, index: u64, by: &dyn Quick) -> Result<(), Box<Difference>> {
    let before = loaded(&mut turn.rng);
    for round in 0..QUESTIONS {
        let table = turned(&mut turn.rng, &before.table, round);
        let index = beside(&mut turn.rng, &table, &before.table, 4);
        let asked = drawn(turn, &table, &before.bahnhof);
        if index.is_own_unmarked {
            turn.counts.count("by another mark");
        }
        ask(turn, &table, &index.words, index.is_own || index.is_own_unmarked, &asked, by)?;
    }
    if index % 50 == 0 {
        let own = index_words(&before.table).unwrap_or_default();
        for at in 0..own.len() {
            let mut other = own.clone();
            damage_word(&mut turn.rng, &mut other, at);
            let asked = drawn(turn, &before.table, &before.bahnhof);
            let is_own = other == own || otherwise_marked(&own, &other).is_some();
            ask(turn, &before.table, &other, is_own, &asked, by)?;
        }
    }
    Ok(())
}

/// A question, and for a name BAHNHOF.
#[derive(Clone, Debug)]
enum Asked {
    Question(Question),
    Name(NameQuestion, Vec<u8>),
}

fn drawn(turn: &mut Turn<'_>, table: &[u32], bahnhof: &[u8]) -> Asked {
    if turn.rng.once_in(4) {
        let question = name_question(&mut turn.rng, table);
        return Asked::Name(question, other_bytes(&mut turn.rng, table, bahnhof));
    }
    Asked::Question(question(&mut turn.rng, table))
}

impl Asked {
    fn room(&self) -> usize {
        match self {
            Asked::Question(Question::Walk { room, .. }) => *room,
            _ => 0,
        }
    }

    fn bytes(&self) -> &[u8] {
        match self {
            Asked::Name(_, bytes) => bytes,
            Asked::Question(_) => &[],
        }
    }

    fn name(&self) -> &'static str {
        match self {
            Asked::Name(..) => "name",
            Asked::Question(Question::Day { .. }) => "day",
            Asked::Question(Question::Interchange { .. }) => "interchange",
            Asked::Question(Question::Between { .. }) => "between",
            Asked::Question(Question::Walk { .. }) => "walk",
        }
    }

    fn plain(&self, table: &[u32], lent: &mut [u32]) -> Vec<u32> {
        match self {
            Asked::Name(NameQuestion { stop, language, kind }, bytes) => {
                Reader.stop_name(table, bytes, *stop, [*language, *kind]).to_vec()
            }
            Asked::Question(Question::Day { date, bitfield }) => Reader.day(table, *date, *bitfield).to_vec(),
            Asked::Question(Question::Interchange { stop, classes }) => {
                Reader.interchange(table, *stop, *classes).to_vec()
            }
            Asked::Question(Question::Between { stop, categories }) => {
                Reader.interchange_between(table, *stop, *categories).to_vec()
            }
            Asked::Question(Question::Walk { service, repeat, date, .. }) => {
                Reader.walk(table, *service, *repeat, *date, lent).to_vec()
            }
        }
    }

    fn quick(&self, by: &dyn Quick, given: Given<'_>, lent: &mut [u32]) -> Vec<u32> {
        let Given { table, index, bytes, .. } = given;
        match self {
            Asked::Name(NameQuestion { stop, language, kind }, _) => {
                by.stop_name(table, index, bytes, *stop, [*language, *kind]).to_vec()
            }
            Asked::Question(Question::Day { date, bitfield }) => by.day(table, index, *date, *bitfield).to_vec(),
            Asked::Question(Question::Interchange { stop, classes }) => {
                by.interchange(table, index, *stop, *classes).to_vec()
            }
            Asked::Question(Question::Between { stop, categories }) => {
                by.interchange_between(table, index, *stop, *categories).to_vec()
            }
            Asked::Question(Question::Walk { service, repeat, date, .. }) => {
                by.walk(table, index, *service, *repeat, *date, lent).to_vec()
            }
        }
    }

    /// Whether an answer that is no refusal comes from records of these words that have the numbers asked for.
    fn is_possible(&self, table: &[u32], answer: &[u32]) -> bool {
        let words = match Possible::of(table) {
            Some(words) => words,
            None => return false,
        };
        match self {
            Asked::Name(NameQuestion { stop, language, kind }, bytes) => {
                words.name(bytes, *stop, [*language, *kind], [answer[1], answer[2]])
            }
            Asked::Question(Question::Day { date, bitfield }) => words.day(*date, *bitfield, answer[1]),
            Asked::Question(Question::Interchange { stop, classes }) => words.minutes(*stop, *classes, answer[1]),
            Asked::Question(Question::Between { stop, categories }) => words.between(*stop, *categories, answer[1]),
            Asked::Question(Question::Walk { room, .. }) => answer[1] as usize * ROW_WORDS <= *room && answer[1] != 1,
        }
    }
}

fn ask(
    turn: &mut Turn<'_>,
    table: &[u32],
    index: &[u32],
    is_own: bool,
    asked: &Asked,
    by: &dyn Quick,
) -> Result<(), Box<Difference>> {
    let lent = lent_words(asked.room());
    let given = Given { table, index, bytes: asked.bytes(), ..Given::default() };
    let found = turn.words(given, &lent, |given, lent| asked.quick(by, given, lent));
    if is_own {
        let mut words = lent.clone();
        let expected = Left { answer: asked.plain(table, &mut words), lent: words, is_kept: true };
        turn.counts.count(match expected.answer[0] {
            0 => format!("{}, answered", asked.name()),
            number => format!("{}, refused {}", asked.name(), number),
        });
        if found != expected {
            return Err(Difference::new(format!("{:?}: {}", asked, told(&expected, &found)), given));
        }
        return Ok(());
    }
    let again = turn.words(given, &lent, |given, lent| asked.quick(by, given, lent));
    let header = Possible::of(table).is_some();
    turn.counts.count(match (header, found.answer[0]) {
        (false, number) => format!("no table, refused {}", number),
        (true, 0) => "other index, answered".to_string(),
        (true, number) => format!("other index, refused {}", number),
    });
    let is_right = match found.answer[0] {
        0 => {
            let written = if asked.name() == "walk" { ROW_WORDS * found.answer[1] as usize } else { 0 };
            header && asked.is_possible(table, &found.answer) && found.lent[written..] == lent[written..]
        }
        29 => header && found.answer[2] as usize > asked.room() && found.answer[1] == 0 && found.lent == lent,
        21 => !header && found.answer[1..].iter().all(|word| *word == 0) && found.lent == lent,
        number => {
            header
                && REFUSALS.contains(&number)
                && found.answer[1..].iter().all(|word| *word == 0)
                && found.lent == lent
        }
    };
    if !is_right || found != again || !found.is_kept {
        let text = format!("{:?} by another index: {:?}, then {:?}", asked, found.answer, again.answer);
        return Err(Difference::new(text, given));
    }
    Ok(())
}
