//! Making and checking indexes (document 02, No. 9).

use super::tables::{beside, loaded, mark_name, otherwise_marked, turned};
use super::turn::{lent_words, told};
use super::{Difference, Turn};
use crate::boundary::Reader;
use crate::edge::{Given, Left};
use crate::functions::Indexes;
use crate::generate::boards::{damage_mark, damage_word};
use crate::reader::index_words;

pub const ANSWERS: &[&str] = &[
    "made",
    "made, mark 0",
    "made, mark 1",
    "made, refused 21",
    "made, refused 29",
    "checked",
    "checked, refused 21",
    "checked, refused 43",
    "checked, refused 43 by mark 0",
    "checked, refused 43 by mark 1",
    "checked, refused 43 by mark 2",
    "checked, refused 43 by no such mark",
];

/// Indexes made and checked on a delivery's table and bent ones; in every fiftieth case an index damaged in each word.
pub fn compare(turn: &mut Turn<'_>, index: u64, by: &dyn Indexes) -> Result<(), Box<Difference>> {
    let before = loaded(&mut turn.rng).table;
    for round in 0..6 {
        let table = turned(&mut turn.rng, &before, round);
        make(turn, &table, by)?;
        for _ in 0..2 {
            let beside = beside(&mut turn.rng, &table, &before, 2);
            check(turn, &table, &beside.words, by)?;
        }
        let mut marked = index_words(&table).unwrap_or_default();
        damage_mark(&mut turn.rng, &mut marked);
        check(turn, &table, &marked, by)?;
    }
    if index % 50 == 0 {
        let own = index_words(&before).unwrap_or_default();
        for at in 0..own.len() {
            let mut other = own.clone();
            damage_word(&mut turn.rng, &mut other, at);
            check(turn, &before, &other, by)?;
        }
    }
    Ok(())
}

fn make(turn: &mut Turn<'_>, table: &[u32], by: &dyn Indexes) -> Result<(), Box<Difference>> {
    let needed = index_words(table).map_or(10, |own| own.len());
    let short = turn.rng.index(needed + 1);
    let room = turn.rng.pick(&[needed, needed, needed + 1, needed + 7, needed.saturating_sub(1), 0, short]);
    let lent = lent_words(room);
    let mut words = lent.clone();
    let answer = Reader.index(table, &mut words);
    let expected = Left { answer, lent: words, is_kept: true };
    let given = Given { table, ..Given::default() };
    let found = turn.words(given, &lent, |given, lent| by.index(given.table, lent));
    turn.counts.count(match answer {
        [0, _] => "made".to_string(),
        [number, _] => format!("made, refused {}", number),
    });
    if let [0, made] = answer {
        turn.counts.count(format!("made, {}", mark_name(expected.lent[made as usize - 1])));
    }
    if found != expected {
        return Err(Difference::new(format!("an index made in {} words: {}", room, told(&expected, &found)), given));
    }
    Ok(())
}

fn check(turn: &mut Turn<'_>, table: &[u32], index: &[u32], by: &dyn Indexes) -> Result<(), Box<Difference>> {
    let answer = Reader.check_index(table, index);
    let expected = Left { answer, lent: Vec::new(), is_kept: true };
    let given = Given { table, index, ..Given::default() };
    let found = turn.words(given, &[], |given, _| by.check_index(given.table, given.index));
    turn.counts.count(match answer {
        [0] => "checked".to_string(),
        [number] => format!("checked, refused {}", number),
    });
    if let Some(mark) = index_words(table).and_then(|own| otherwise_marked(&own, index)) {
        turn.counts.count(format!("checked, refused {} by {}", answer[0], mark_name(mark)));
    }
    if found != expected {
        return Err(Difference::new(format!("an index checked: {}", told(&expected, &found)), given));
    }
    Ok(())
}
