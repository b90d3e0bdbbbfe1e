//! Document 02, No. 14: an edit inside one service's block, and bit field numbers changed one-to-one.

use super::{Difference, Turn};
use crate::boundary::Boundary;
use crate::generate::isolation::{edited, renamed};
use crate::generate::plan::date_of;
use crate::generate::questions::{head_of, last_run};
use crate::generate::Size;
use crate::layout::{BIT_FIELD_WORDS, HEADER_WORDS, MOST_ROW_WORDS, PERIOD_DAYS_AT, SERVICES_AT};
use crate::reader::helper_needed;

pub const ANSWERS: &[&str] = &["edited", "renamed", "walk, rows", "walk, not running", "walk, refused", "day"];

/// So many walks of a service, on dates drawn anew.
const WALKS: u32 = 3;

pub fn compare(turn: &mut Turn<'_>, by: &dyn Boundary) -> Result<(), Box<Difference>> {
    let size = if turn.rng.once_in(30) { Size::Large } else { Size::Medium };
    if let Some(pair) = edited(&mut turn.rng, size) {
        turn.counts.count("edited");
        let tables = (loaded(by, &pair.before)?, loaded(by, &pair.after)?);
        let others = |service: u32| service != pair.service;
        alike(turn, by, &tables, others)
            .map_err(|text| Difference::of_files(format!("edited: {}", text), &pair.before, &pair.after[4]))?;
    }
    let pair = renamed(&mut turn.rng, size);
    turn.counts.count("renamed");
    let tables = (loaded(by, &pair.before)?, loaded(by, &pair.after)?);
    let walks = if tables.0.len() == tables.1.len() {
        alike(turn, by, &tables, |_| true)
    } else {
        Err("a table of another length".to_string())
    };
    walks
        .and_then(|()| days_alike(turn, by, &tables, |number| pair.numbers.get(&number).copied().unwrap_or(number)))
        .map_err(|text| Difference::of_files(format!("renamed: {}", text), &pair.before, &pair.after[4]))
}

/// The words of an accepted delivery.
fn loaded(by: &dyn Boundary, files: &[Vec<u8>; 6]) -> Result<Vec<u32>, Box<Difference>> {
    let [a, b, c, d, e, f] = files;
    let slices: [&[u8]; 6] = [a, b, c, d, e, f];
    let mut table = vec![0; 16 + files.iter().map(Vec::len).sum::<usize>() / 2];
    let mut helper = vec![0; helper_needed(slices)];
    match by.load(slices, &mut table, &mut helper) {
        [0, _, _, words, _] => table.truncate(words as usize),
        refused => return Err(Difference::of_files(format!("refused {:?}", refused), files, e)),
    }
    Ok(table)
}

fn dates(turn: &mut Turn<'_>, table: &[u32]) -> [u32; 3] {
    let day = match turn.rng.below(10) {
        0 => table[1].saturating_sub(1),
        1 => table[1] + table[PERIOD_DAYS_AT],
        _ => table[1] + turn.rng.below(table[PERIOD_DAYS_AT]),
    };
    let (d, m, y) = date_of(day.min(crate::reader::calendar::LAST_DAY));
    [d, m, y]
}

/// "every other service's walk gives the same answer and rows, given the same service index, repeat, date and room"
fn alike(
    turn: &mut Turn<'_>,
    by: &dyn Boundary,
    (before, after): &(Vec<u32>, Vec<u32>),
    asked: impl Fn(u32) -> bool,
) -> Result<(), String> {
    if before[SERVICES_AT] != after[SERVICES_AT] {
        return Err("as many services".to_string());
    }
    for service in (0..=before[SERVICES_AT]).filter(|service| asked(*service)) {
        for _ in 0..WALKS {
            let last = head_of(before, service).map_or(0, last_run) as u32;
            let repeat = turn.rng.pick(&[0, 0, last / 2, last, last + 1]);
            let (date, room) = (dates(turn, before), turn.rng.pick(&[MOST_ROW_WORDS, MOST_ROW_WORDS, 0, 20, 25]));
            let (mut rows, mut other) = (vec![9; room], vec![9; room]);
            let first = by.walk(before, service, repeat, date, &mut rows);
            let second = by.walk(after, service, repeat, date, &mut other);
            turn.counts.count(match first {
                [0, 0, _] => "walk, not running",
                [0, ..] => "walk, rows",
                _ => "walk, refused",
            });
            if first != second || rows != other {
                return Err(format!(
                    "service {} repeat {} on {:?} in {} words: {:?} before, {:?} after",
                    service, repeat, date, room, first, second
                ));
            }
        }
    }
    Ok(())
}

/// "The day question by number is exempt": the day of a number before is that of its new number after.
fn days_alike(
    turn: &mut Turn<'_>,
    by: &dyn Boundary,
    (before, after): &(Vec<u32>, Vec<u32>),
    renamed: impl Fn(u32) -> u32,
) -> Result<(), String> {
    let fields = before[3] as usize;
    for at in 0..fields {
        let number = before[HEADER_WORDS + BIT_FIELD_WORDS * at];
        let date = dates(turn, before);
        turn.counts.count("day");
        if by.day(before, date, number) != by.day(after, date, renamed(number)) {
            return Err(format!("the day of {} on {:?}", number, date));
        }
    }
    Ok(())
}
