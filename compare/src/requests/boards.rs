//! Departure boards (document 02, No. 9), checked and quick.

use super::tables::{beside, loaded, mark_name, turned};
use super::turn::{lent_words, told};
use super::{Difference, Turn};
use crate::edge::{Given, Left};
use crate::functions::{board_words, Boards};
use crate::generate::boards::{board_question, board_room, marked, Marked};
use crate::generate::raw_table::parts;
use crate::layout::{KIND_AT, KIND_T, KIND_Z, STOP_NUMBER_AT, USED_AT};
use crate::reader::board::{departures, listed, Departure, BOARD_ROW_WORDS};
use crate::reader::quick_board::quick_departures;
use crate::reader::BoardQuestion;

/// Whether a board looks at its index first.
#[derive(Clone, Copy, Debug, PartialEq, Eq)]
pub enum By {
    /// "43 words that are not this table's index"
    Checked,
    /// The index is taken as it is, and its mark; of its own table the answers are the same.
    Quick,
}

pub const ANSWERS: &[&str] = &[
    "rows",
    "rows after midnight",
    "rows of *Z repeats",
    "rows of *T runs",
    "rows at the same time",
    "rows of a number listed twice",
    "a row at the first time",
    "a row at the last time",
    "no rows",
    "first after last",
    "refused 21",
    "refused 22",
    "refused 23",
    "refused 27",
    "refused 29",
    "refused 29 by one word",
    "refused 43",
];

/// Of words that are not the table's index, but whose answer the decisions say.
const BY_WORDS: &[&str] = &[
    "by other words, rows",
    "by other words, no rows",
    "by other words, refused 21",
    "by other words, refused 22",
    "by other words, refused 23",
    "by other words, refused 27",
    "by other words, refused 29",
    "by other words, refused 43",
    "by mark 0",
    "by mark 1",
    "by mark 2",
    "by no such mark",
    "by mark 1, more rows than by walks",
    "by mark 1, a time that falls",
    "by mark 1, a time not stated",
    "by mark 1, flags over 15",
    "by mark 1, a place not below S",
    "by mark 1, a time over 59,999",
    "by mark 1, a call elsewhere",
    "by mark 1, another bit field",
    "by mark 1, a range in wrong order",
    "by mark 1, another *A in wrong order",
    "by mark 1, no such kind",
];

/// The same by an index that is not looked at: words that are no table have none, and 43 is only where it cannot be one.
pub fn quick_answers() -> Vec<&'static str> {
    let plain = ANSWERS.iter().copied().filter(|answer| !["refused 21", "refused 43"].contains(answer));
    plain.chain(["of another index"]).chain(BY_WORDS.iter().copied()).collect()
}

const BOARDS: u32 = 12;

/// Quick ones by words that were the table's index once.
const MARKED: u32 = 8;

pub fn compare(turn: &mut Turn<'_>, how: By, by: &dyn Boards) -> Result<(), Box<Difference>> {
    let before = loaded(&mut turn.rng).table;
    for round in 0..BOARDS {
        let table = turned(&mut turn.rng, &before, round);
        let index = beside(&mut turn.rng, &table, &before, 4);
        let asked = board_question(&mut turn.rng, &table);
        if how == By::Quick && !index.is_own {
            ask_by_words(turn, &table, &index.words, &asked, &[], by)?;
        } else {
            ask(turn, &table, &index.words, &asked, by)?;
        }
    }
    for _ in 0..if how == By::Quick { MARKED } else { 0 } {
        if let Some(Marked { table, index, asked, damages }) = marked(&mut turn.rng, &before) {
            ask_by_words(turn, &table, &index, &asked, &damages, by)?;
        }
    }
    Ok(())
}

/// A board by the table's index, or checked.
fn ask(
    turn: &mut Turn<'_>,
    table: &[u32],
    index: &[u32],
    asked: &BoardQuestion,
    by: &dyn Boards,
) -> Result<(), Box<Difference>> {
    let rows = departures(table, Some(index), asked);
    let (room, answer) = ask_told(turn, table, index, asked, &rows, by)?;
    turn.counts.count(match answer {
        [0, 0, _] if asked.first > asked.last => "first after last".to_string(),
        [0, 0, _] => "no rows".to_string(),
        [0, ..] => "rows".to_string(),
        [number, ..] => format!("refused {}", number),
    });
    if let ([0, ..], Ok(rows)) = (answer, &rows) {
        notable(turn, table, asked, rows);
    }
    if answer == [29, 0, room as u64 + 1] {
        turn.counts.count("refused 29 by one word");
    }
    Ok(())
}

/// A board whose rows, or refusal, the reader has: the room lent, and the answer.
fn ask_told(
    turn: &mut Turn<'_>,
    table: &[u32],
    index: &[u32],
    asked: &BoardQuestion,
    rows: &Result<Vec<Departure>, u32>,
    by: &dyn Boards,
) -> Result<(usize, [u64; 3]), Box<Difference>> {
    let room = board_room(&mut turn.rng, BOARD_ROW_WORDS * rows.as_ref().map_or(3, Vec::len));
    let lent = lent_words(room);
    let mut words = lent.clone();
    let answer = board_words(listed(rows.clone(), &mut words));
    let expected = Left { answer, lent: words, is_kept: true };
    let given = Given { table, index, ..Given::default() };
    let found = turn.words(given, &lent, |given, lent| by.board(given.table, given.index, asked, lent));
    if found != expected {
        let text = format!("{:?} into {} words: {}", asked, room, told(&expected, &found));
        return Err(Difference::new(text, given));
    }
    Ok((room, answer))
}

/// A quick board by words that are not the table's index, or were it before these damages: as the decisions say, where they do.
fn ask_by_words(
    turn: &mut Turn<'_>,
    table: &[u32],
    index: &[u32],
    asked: &BoardQuestion,
    damages: &[&'static str],
    by: &dyn Boards,
) -> Result<(), Box<Difference>> {
    let rows = match quick_departures(table, index, asked) {
        Some(rows) => rows,
        None => return ask_other(turn, table, index, asked, by),
    };
    let (_, answer) = ask_told(turn, table, index, asked, &rows, by)?;
    turn.counts.count(match answer {
        [0, 0, _] => "by other words, no rows".to_string(),
        [0, ..] => "by other words, rows".to_string(),
        [number, ..] => format!("by other words, refused {}", number),
    });
    if let (Some((mark, unmarked)), Ok(rows)) = (index.split_last(), rows) {
        turn.counts.count(format!("by {}", mark_name(*mark)));
        if *mark == 1 {
            damages.iter().for_each(|damage| turn.counts.count(format!("by mark 1, {}", damage)));
            let by_walks = quick_departures(table, &[unmarked, &[0]].concat(), asked);
            if by_walks != Some(Ok(rows)) {
                turn.counts.count("by mark 1, more rows than by walks");
            }
        }
    }
    Ok(())
}

/// What is notable about the rows of a board.
fn notable(turn: &mut Turn<'_>, table: &[u32], asked: &BoardQuestion, rows: &[Departure]) {
    let raw = parts(&table[..table[USED_AT] as usize]);
    let kind = |row: &Departure| raw.services[row.service as usize].head[KIND_AT];
    let listed = raw.stops.iter().filter(|stop| stop[STOP_NUMBER_AT] == asked.stop).count();
    let is = |is: bool, what: &'static str| Some(what).filter(|_| is);
    let any = |test: &dyn Fn(&Departure) -> bool, what| is(rows.iter().any(test), what);
    let notable = [
        any(&|row| row.time >= 1_440, "rows after midnight"),
        any(&|row| row.repeat > 0 && kind(row) == KIND_Z, "rows of *Z repeats"),
        any(&|row| row.repeat > 0 && kind(row) == KIND_T, "rows of *T runs"),
        any(&|row| row.time == asked.first, "a row at the first time"),
        any(&|row| row.time == asked.last, "a row at the last time"),
        is(rows.windows(2).any(|pair| pair[0].time == pair[1].time), "rows at the same time"),
        is(listed > 1 && !rows.is_empty(), "rows of a number listed twice"),
    ];
    notable.into_iter().flatten().for_each(|what| turn.counts.count(what));
}

/// A quick board by words whose answer no paper says. It may be refused or list anything, but it answers the same each time, lists no more than its room holds, and leaves
/// the words behind its rows, or all if it is refused.
fn ask_other(
    turn: &mut Turn<'_>,
    table: &[u32],
    index: &[u32],
    asked: &BoardQuestion,
    by: &dyn Boards,
) -> Result<(), Box<Difference>> {
    let room = turn.rng.pick(&[0, 4, 40, 400]);
    let lent = lent_words(room);
    let given = Given { table, index, ..Given::default() };
    let found = turn.words(given, &lent, |given, lent| by.board(given.table, given.index, asked, lent));
    let again = turn.words(given, &lent, |given, lent| by.board(given.table, given.index, asked, lent));
    let [number, rows, needed] = found.answer;
    let listed = BOARD_ROW_WORDS as u64 * rows;
    let is_right = match number {
        0 => needed == 0 && listed <= room as u64 && found.lent[listed as usize..] == lent[listed as usize..],
        29 => rows == 0 && needed > room as u64 && found.lent == lent,
        21 | 22 | 23 | 27 | 43 => rows == 0 && needed == 0 && found.lent == lent,
        _ => false,
    };
    turn.counts.count("of another index");
    if !is_right || found != again || !found.is_kept {
        let text =
            format!("{:?} into {} words by another index: {:?}, then {:?}", asked, room, found.answer, again.answer);
        return Err(Difference::new(text, given));
    }
    Ok(())
}
