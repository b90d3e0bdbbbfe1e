//! FPLAN written (document 02, No. 11), and the round trip of accepted deliveries.

use super::tables::turned;
use super::turn::{lent_bytes, told};
use super::{Difference, Turn};
use crate::boundary::{Boundary, Reader};
use crate::differ::senseless;
use crate::edge::{Given, Left};
use crate::functions::Writes;
use crate::generate::raw_table::parts;
use crate::generate::writes::bent_for_writing;
use crate::generate::{valid, Size};
use crate::layout::{OPENING_LINE_AT, USED_AT};
use crate::reader::is_table;
use crate::reader::write::text_of;

pub const ANSWERS: &[&str] =
    &["text", "no text", "refused 21", "refused 44", "refused 45", "45 by one byte", "round trip"];

const TABLES: u32 = 6;

/// `load` is the archive's or the reader's own.
pub fn compare(turn: &mut Turn<'_>, by: &dyn Writes, load: &dyn Boundary) -> Result<(), Box<Difference>> {
    let size = if turn.rng.once_in(100) { Size::Large } else { Size::Medium };
    let case = valid(&mut turn.rng, size);
    let (mut table, mut helper) = (lent_room(case.room), case.helper.clone());
    let answer = load.load(case.slices(), &mut table, &mut helper);
    if answer[0] != 0 {
        let given = Given { table: &table, ..Given::default() };
        return Err(Difference::new(format!("a delivery that breaks no rule is refused: {:?}", answer), given));
    }
    for round in 0..TABLES {
        let bent = match round % 3 {
            0 => turned(&mut turn.rng, &table, 0),
            1 => turned(&mut turn.rng, &table, 1),
            _ if turn.rng.once_in(50) => senseless(&mut turn.rng),
            _ => {
                let (bent, names) = bent_for_writing(&mut turn.rng, &parts(&table));
                names.iter().for_each(|name| turn.counts.count(format!("bent: {}", name)));
                bent.words()
            }
        };
        ask(turn, &bent, by)?;
    }
    round_trip(turn, case.files, &table[..answer[3] as usize], by, load)
}

fn lent_room(words: usize) -> Vec<u32> {
    vec![0xAAAA_AAAA; words]
}

fn ask(turn: &mut Turn<'_>, table: &[u32], by: &dyn Writes) -> Result<(), Box<Difference>> {
    let needed = text_of(table).map_or(60, |text| text.len());
    let room = match turn.rng.below(8) {
        0 => needed.saturating_sub(1),
        1 => turn.rng.pick(&[0, needed.saturating_sub(60), needed / 2]),
        2 => needed + turn.rng.index(100),
        _ => needed,
    };
    let lent = lent_bytes(room);
    let mut bytes = lent.clone();
    let answer = Reader.write(table, &mut bytes);
    let expected = Left { answer, lent: bytes, is_kept: true };
    let given = Given { table, ..Given::default() };
    let found = turn.bytes(given, &lent, |given, lent| by.write(given.table, lent));
    turn.counts.count(match answer {
        [0, 0] => "no text".to_string(),
        [0, _] => "text".to_string(),
        [number, _] => format!("refused {}", number),
    });
    if answer == [45, room as u64 + 1] {
        turn.counts.count("45 by one byte");
    }
    if found != expected {
        let text = format!("FPLAN written into {} bytes: {}", room, told(&expected, &found));
        return Err(Difference::new(text, given));
    }
    Ok(())
}

/// "For a table of an accepted delivery, loading the text with the same other files gives the same table except the opening line numbers, and writing that again gives the
/// same bytes."
fn round_trip(
    turn: &mut Turn<'_>,
    mut files: [Vec<u8>; 6],
    table: &[u32],
    by: &dyn Writes,
    load: &dyn Boundary,
) -> Result<(), Box<Difference>> {
    let given = Given { table, ..Given::default() };
    let broken = |text: String| Err(Difference::new(format!("the round trip: {}", text), given));
    let mut text = vec![0; files[4].len() + 1];
    match by.write(table, &mut text) {
        [0, bytes] => text.truncate(bytes as usize),
        refused => return broken(format!("written {:?}", refused)),
    }
    files[4] = text.clone();
    let [a, b, c, d, e, f] = &files;
    let mut again = vec![0; table.len()];
    let mut helper = vec![7; crate::reader::helper_needed([a, b, c, d, e, f])];
    let answer = load.load([a, b, c, d, e, f], &mut again, &mut helper);
    if answer != [0, 0, 0, table.len() as u32, 0] {
        return broken(format!("loaded {:?}", answer));
    }
    if without_lines(&again) != without_lines(table) {
        return broken("another table".to_string());
    }
    let mut second = vec![0; text.len()];
    let answer = by.write(&again, &mut second);
    if answer != [0, text.len() as u64] || second != text {
        return broken(format!("written again {:?}", answer));
    }
    turn.counts.count("round trip");
    Ok(())
}

/// A table whose opening line numbers are 0.
fn without_lines(table: &[u32]) -> Vec<u32> {
    assert!(is_table(table) && table[USED_AT] as usize == table.len());
    let mut raw = parts(table);
    raw.services.iter_mut().for_each(|service| service.head[OPENING_LINE_AT] = 0);
    raw.words()
}
