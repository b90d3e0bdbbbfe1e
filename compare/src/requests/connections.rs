//! Proposed connections (document 02, No. 12), plain and by an index.

use super::tables::{beside, loaded, turned};
use super::turn::told;
use super::{Difference, Turn};
use crate::boundary::Reader;
use crate::edge::{Given, Left};
use crate::functions::Connections;
use crate::generate::connections::proposed;
use crate::generate::raw_table::parts as parts_of;
use crate::layout::{INTERCHANGE_FIRST_TIME_AT, USED_AT};
use crate::reader::connection::PART_WORDS;

/// Whether the question takes an index.
#[derive(Clone, Copy, Debug, PartialEq, Eq)]
pub enum By {
    Table,
    Index,
}

/// Each refusal of a part as the first bad one, of several parts: the first, one between, the last.
pub const ANSWERS: &[&str] = &[
    "holds, 1",
    "holds, 2",
    "holds, 3",
    "holds, 10",
    "refused 21",
    "refused 46",
    "refused 22, only",
    "refused 22, first",
    "refused 22, middle",
    "refused 22, last",
    "refused 23, first",
    "refused 23, middle",
    "refused 23, last",
    "refused 24, first",
    "refused 24, middle",
    "refused 24, last",
    "refused 25, first",
    "refused 25, middle",
    "refused 25, last",
    "refused 31, first",
    "refused 31, middle",
    "refused 31, last",
    "refused 33, first",
    "refused 33, middle",
    "refused 33, last",
    "refused 34, first",
    "refused 34, middle",
    "refused 34, last",
    "refused 35, first",
    "refused 35, middle",
    "refused 35, last",
    "refused 36, first",
    "refused 36, middle",
    "refused 36, last",
    "refused 47, first",
    "refused 47, middle",
    "refused 47, last",
    "refused 48, first",
    "refused 48, middle",
    "refused 48, last",
    "refused 49, middle",
    "refused 49, last",
    "refused 38, middle",
    "refused 38, last",
    "refused 50, middle",
    "refused 50, last",
    "a wait that is just enough",
    "holds over dates",
    "50 by an earlier date",
    "50 by one minute",
    "46 by 0 words",
    "46 by 69 words",
    "46 by 71 words",
    "46 by 77 words",
    "46 by 78 words",
];

/// The same by an index: words that are no table have none.
pub fn quick_answers() -> Vec<&'static str> {
    let plain = ANSWERS.iter().copied().filter(|answer| *answer != "refused 21");
    plain.chain(["by another mark", "of another index"]).collect()
}

const CONNECTIONS: u32 = 12;

pub fn compare(turn: &mut Turn<'_>, how: By, by: &dyn Connections) -> Result<(), Box<Difference>> {
    let before = loaded(&mut turn.rng).table;
    for round in 0..CONNECTIONS {
        let other = turned(&mut turn.rng, &before, if round % 4 == 3 { 1 } else { 0 });
        let (table, parts) = proposed(&mut turn.rng, &other);
        let index = match how {
            By::Table => Vec::new(),
            By::Index => {
                let index = beside(&mut turn.rng, &table, &before, 6);
                if index.is_own_unmarked {
                    turn.counts.count("by another mark");
                } else if !index.is_own {
                    ask_other(turn, &table, &index.words, &parts, by)?;
                    continue;
                }
                index.words
            }
        };
        ask(turn, &table, &index, &parts, by)?;
    }
    Ok(())
}

fn ask(
    turn: &mut Turn<'_>,
    table: &[u32],
    index: &[u32],
    parts: &[u32],
    by: &dyn Connections,
) -> Result<(), Box<Difference>> {
    let answer = Reader.connection(table, index, parts);
    let expected = Left { answer, lent: Vec::new(), is_kept: true };
    let given = Given { table, index, parts, ..Given::default() };
    let found = turn.words(given, &[], |given, _| by.connection(given.table, given.index, given.parts));
    turn.counts.count(named(answer, parts.len() / PART_WORDS));
    if turn.rng.once_in(4) {
        notable(turn, table, parts, answer);
    }
    if found != expected {
        return Err(Difference::new(format!("a connection: {}", told(&expected, &found)), given));
    }
    Ok(())
}

/// What is notable about the waits of a connection: equal to the time of a change, a minute short of it, and over dates.
fn notable(turn: &mut Turn<'_>, table: &[u32], parts: &[u32], answer: [u32; 2]) {
    let date = |part: &[u32]| [part[4], part[3], part[2]];
    let dates: Vec<[u32; 3]> = parts.chunks_exact(PART_WORDS).map(date).collect();
    let retimed = |by: i64| {
        let mut raw = parts_of(&table[..table[USED_AT] as usize]);
        let times = raw.records.iter_mut().flat_map(|record| record[INTERCHANGE_FIRST_TIME_AT..].iter_mut());
        times.for_each(|time| *time = (i64::from(*time) + by).clamp(0, i64::from(u32::MAX)) as u32);
        Reader.connection(&raw.words(), &[], parts)
    };
    let later = dates.windows(2).any(|pair| pair[0] < pair[1]);
    match answer {
        [0, _] if retimed(1)[0] == 50 => turn.counts.count("a wait that is just enough"),
        [0, _] if later => turn.counts.count("holds over dates"),
        [50, part] if dates[part as usize - 1] < dates[part as usize - 2] => turn.counts.count("50 by an earlier date"),
        [50, _] if retimed(-1) != answer => turn.counts.count("50 by one minute"),
        [46, _] => turn.counts.count(format!("46 by {} words", parts.len())),
        _ => {}
    }
}

fn named([number, part]: [u32; 2], parts: usize) -> String {
    let place = match part as usize {
        0 => return if number == 0 { format!("holds, {}", parts) } else { format!("refused {}", number) },
        _ if parts == 1 => "only",
        1 => "first",
        part if part == parts => "last",
        _ => "middle",
    };
    format!("refused {}, {}", number, place)
}

/// By words that are not the table's index: any answer that there is, the same each time.
fn ask_other(
    turn: &mut Turn<'_>,
    table: &[u32],
    index: &[u32],
    parts: &[u32],
    by: &dyn Connections,
) -> Result<(), Box<Difference>> {
    let given = Given { table, index, parts, ..Given::default() };
    let found = turn.words(given, &[], |given, _| by.connection(given.table, given.index, given.parts));
    let again = turn.words(given, &[], |given, _| by.connection(given.table, given.index, given.parts));
    let [number, part] = found.answer;
    let count = parts.len() / PART_WORDS;
    let is_right = match number {
        0 | 21 | 46 => part == 0,
        43 => part as usize <= count,
        22 | 23 | 24 | 25 | 31 | 33 | 34 | 35 | 36 | 47 | 48 => (1..=count).contains(&(part as usize)),
        49 | 38 | 50 => (2..=count).contains(&(part as usize)),
        _ => false,
    };
    turn.counts.count("of another index");
    if !is_right || found != again || !found.is_kept {
        let text = format!("a connection by another index: {:?}, then {:?}", found.answer, again.answer);
        return Err(Difference::new(text, given));
    }
    Ok(())
}
