//! The index beside a table: its words made and checked. Document 02, No. 9: "Keep beside the table an index, per stop, of the calls there"; "An index is valid only
//! if it equals the one this table would get". Where its words stand the header of the library says: look-ups by number of the bit fields, stops, interchange
//! records and categories, the place of each service's record, the calls of each stop, and the mark (docs/DECISIONS.md, D152).

use super::ask::{table, Call, Service, Table};
use crate::layout::{ARRIVAL, BIT_FIELD_NUMBER_AT, CLASS_CODE_AT, DEPARTURE, INTERCHANGE_STOP_AT, STOP_NUMBER_AT};

/// The answer of making an index; 29 has the words needed.
#[derive(Clone, Copy, Debug, PartialEq, Eq)]
pub enum Indexed {
    Words(usize),
    Refused { number: u32, needed: usize },
}

/// "making one answers 21, or 29 with the words needed, and the lent words then stay"; else the index stands at the front, and later words stay.
pub fn index(words: &[u32], lent: &mut [u32]) -> Indexed {
    let made = match index_words(words) {
        Some(made) => made,
        None => return Indexed::Refused { number: 21, needed: 0 },
    };
    match lent.get_mut(..made.len()) {
        Some(front) => front.copy_from_slice(&made),
        None => return Indexed::Refused { number: 29, needed: made.len() },
    }
    Indexed::Words(made.len())
}

/// 0, 21, or "43 words that are not this table's index". A word more or less is another index.
pub fn check_index(words: &[u32], index: &[u32]) -> u32 {
    match index_words(words) {
        None => 21,
        Some(made) if made == index => 0,
        Some(_) => 43,
    }
}

/// The index that a table gets; `None` if the words are none.
pub fn index_words(words: &[u32]) -> Option<Vec<u32>> {
    table(words).map(|table| index_of(&table))
}

pub(super) fn index_of(table: &Table<'_>) -> Vec<u32> {
    let mut made = look_ups_of(table);
    made.extend(table.services.iter().map(|service| service.at as u32));
    made.extend(calls(table));
    // the mark: 1 where the table's calls are steady, else 0
    made.push(u32::from(table.services.iter().all(is_steady)));
    made
}

/// The look-ups of bit fields, stops, interchange records and categories, which go by their records alone.
pub(super) fn look_ups_of(table: &Table<'_>) -> Vec<u32> {
    let mut made = look_ups(table.bit_field_records().map(|record| record[BIT_FIELD_NUMBER_AT]).collect());
    made.extend(look_ups(table.stop_records().map(|record| record[STOP_NUMBER_AT]).collect()));
    made.extend(look_ups(table.interchange_records().map(|record| record[INTERCHANGE_STOP_AT]).collect()));
    made.extend(look_ups(table.class_records().map(|record| record[CLASS_CODE_AT]).collect()));
    made
}

/// The look-ups of a section with these numbers: records count from the end, the first one being the greatest; of each bucket the greatest record, of each record the
/// greatest below it in the same bucket, 0 for none.
fn look_ups(numbers: Vec<u32>) -> Vec<u32> {
    let n = numbers.len();
    // record e's number
    let number = |e: usize| numbers[n - e];
    let greatest_to = |b: usize, most: usize| (1..=most).rev().find(|e| bucket(number(*e), n) == b).unwrap_or(0);
    let mut words = vec![0; 2 * n];
    for b in 0..n {
        words[2 * b] = greatest_to(b, n) as u32;
    }
    for e in 1..=n {
        words[2 * e - 1] = greatest_to(bucket(number(e), n), e - 1) as u32;
    }
    words
}

/// "(key * 2654435761 mod 2^32) * n / 2^32"
fn bucket(key: u32, n: usize) -> usize {
    let mixed = u64::from(key) * 2_654_435_761 % (1 << 32);
    ((mixed * n as u64) >> 32) as usize
}

/// The calls of each stop: of each place of a stop the last call there, 0 for none; then of each call, numbered through from 1, the last one before it at the same place
/// (0 for none), its service, the place of that service's record, and its place in the route.
fn calls(table: &Table<'_>) -> Vec<u32> {
    let mut last = vec![0; table.stop_records().count()];
    let (mut entries, mut calls) = (Vec::new(), 0);
    for (i, service) in (0..).zip(&table.services) {
        for (place, call) in (0..).zip(&service.calls) {
            let stood = &mut last[call.place as usize];
            calls += 1;
            entries.extend([*stood, i, service.at as u32, place]);
            *stood = calls;
        }
    }
    last.extend(entries);
    last
}

/// A steady service: the first call's departure, both times of each call between and the last call's arrival are stated, and none of these is below the one before it. The first
/// call's arrival and the last call's departure do not matter.
fn is_steady(service: &Service) -> bool {
    let last = service.calls.len() - 1;
    let needed = |(i, call): (usize, &Call)| {
        let arrival = Some((call.flags & ARRIVAL, call.arrival)).filter(|_| i > 0);
        let departure = Some((call.flags & DEPARTURE, call.departure)).filter(|_| i < last);
        [arrival, departure].into_iter().flatten()
    };
    let times: Vec<(u32, u32)> = service.calls.iter().enumerate().flat_map(needed).collect();
    times.iter().all(|(stated, _)| *stated != 0) && times.windows(2).all(|pair| pair[0].1 <= pair[1].1)
}
