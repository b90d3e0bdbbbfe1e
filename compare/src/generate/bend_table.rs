//! (d) Words for the questions: tables bent so that they stay tables, and words that each miss one condition of 21.

// All pokes have one type, whether they change the length or not.
#![allow(clippy::ptr_arg)]

use super::plan::random_frequency;
use super::raw_table::{parts, RawService, RawTable};
use super::rng::Rng;
use crate::layout::{
    ARRIVAL, BIT_FIELDS_AT, BIT_FIELD_BITS_AT, BIT_FIELD_NUMBER_AT, BIT_FIELD_WORDS, BIT_WORDS, CALLS_AT,
    CALL_ARRIVAL_AT, CALL_DEPARTURE_AT, CALL_FLAGS_AT, CALL_NUMBER_AT, CALL_PLACE_AT, CALL_WORDS, CATEGORY_CODE_AT,
    CLASSES_AT, CLASS_AT, CLASS_CODE_AT, DAYS_FIELD_AT, DEPARTURE, EXTRAS_AT, EXTRA_FROM_AT, EXTRA_TO_AT, EXTRA_WORDS,
    FIRST_SERVICE_AT, HEADER_WORDS, INTERCHANGES_AT, INTERCHANGE_STOP_AT, KIND_AT, KIND_T, KIND_Z, OFFSET_AT,
    REPEATS_AT, SERVICES_AT, SERVICE_WORDS, SIZE_AT, STOPS_AT, STOP_NUMBER_AT, STOP_WORDS, USED_AT,
};
use crate::reader::calendar::{LAST_DAY, MOST_PERIOD_DAYS};
use crate::reader::forms::MOST_CLASS;

/// A damage to a table; `None` where the table has no place for it.
pub type Bend = fn(&mut Rng, &mut RawTable) -> Option<()>;

/// A damage to the words of a table; `None` where they have no place for it.
pub type Poke = fn(&mut Rng, &mut Vec<u32>) -> Option<()>;

/// Damages that leave a table: for 28, 31, 33 to 36 and 38, and for lookups that take the first match.
pub const BENDS: &[Bend] = &[
    leg_on_other_bitfield,
    bitfield_renamed,
    bitfield_word,
    bitfield_twice,
    stop_renamed,
    stop_twice,
    name_elsewhere,
    call_elsewhere,
    record_twice,
    one_record,
    class_renamed,
    class_twice,
    other_class,
    category_elsewhere,
    other_flags,
    other_number,
    other_time,
    other_categories,
    other_days,
    tear,
    other_repeats,
    other_frequency,
    other_kind,
    other_period,
];

/// Damages after which the parts, written with right counts, are no table (21).
pub const NO_TABLES: &[Bend] = &[
    days_out_of_bounds,
    last_day_too_late,
    no_records,
    class_over_13,
    under_two_calls,
    over_200_calls,
    over_50_categories,
    over_50_days,
    over_100_others,
    repeats_over_999,
    frequency_over_9999,
    density_0,
    no_such_kind,
    place_not_below_stops,
    time_over_59999,
    flags_over_15,
    end_past_calls,
    other_end_past_calls,
    wrong_order,
    other_wrong_order,
];

/// Damages, by name, that leave each record of a table where it stands, and all that an index finds by a number: first those of calls, which a mark of 1 says nothing of any more.
pub const IN_PLACE: &[(&str, Bend)] = &[
    ("a time that falls", time_falls),
    ("a time not stated", time_not_stated),
    ("flags over 15", flags_over_15),
    ("a place not below S", place_not_below_stops),
    ("a time over 59,999", time_over_59999),
    ("a call elsewhere", call_elsewhere),
    ("another bit field", leg_on_other_bitfield),
    ("a range in wrong order", wrong_order),
    ("another *A in wrong order", other_wrong_order),
    ("no such kind", no_such_kind),
];

/// Damages that leave a table, of the ranges that a stretch goes by.
pub const RANGES: &[Bend] = &[tear, tear, other_days, other_categories];

/// Damages to words after which they are no table (21).
pub const POKES: &[Poke] = &[
    under_a_header,
    used_under_a_header,
    lent_cut_short,
    used_over_lent,
    used_one_more,
    used_one_less,
    place_beyond_used,
    place_off,
    right_modulo_2_to_32,
    header_count_off,
    service_count_off,
    section_count_off,
];

fn some<'a, T>(rng: &mut Rng, items: &'a mut [T]) -> Option<&'a mut T> {
    if items.is_empty() {
        return None;
    }
    let at = rng.index(items.len());
    items.get_mut(at)
}

fn some_service<'a>(rng: &mut Rng, table: &'a mut RawTable) -> Option<&'a mut RawService> {
    some(rng, &mut table.services)
}

fn some_call<'a>(rng: &mut Rng, table: &'a mut RawTable) -> Option<&'a mut [u32; CALL_WORDS]> {
    let service = some_service(rng, table)?;
    some(rng, &mut service.calls)
}

/// A *G or *A VE, with the calls of its service.
fn some_range<'a>(rng: &mut Rng, table: &'a mut RawTable) -> Option<(&'a mut [u32; 3], u32)> {
    let service = some_service(rng, table)?;
    let calls = service.calls.len() as u32;
    let ranges = if rng.coin() { &mut service.categories } else { &mut service.days };
    Some((some(rng, ranges)?, calls))
}

/// Another *A, with the calls of its service.
fn some_other<'a>(rng: &mut Rng, table: &'a mut RawTable) -> Option<(&'a mut [u32; EXTRA_WORDS], u32)> {
    let service = some_service(rng, table)?;
    let calls = service.calls.len() as u32;
    Some((some(rng, &mut service.others)?, calls))
}

fn leg_on_other_bitfield(rng: &mut Rng, table: &mut RawTable) -> Option<()> {
    let service = some_service(rng, table)?;
    some(rng, &mut service.days)?[DAYS_FIELD_AT] = rng.pick(&[0, 77, 999_999, u32::MAX]);
    Some(())
}

fn bitfield_renamed(rng: &mut Rng, table: &mut RawTable) -> Option<()> {
    some(rng, &mut table.bitfields)?[BIT_FIELD_NUMBER_AT] = rng.pick(&[0, 5, u32::MAX]);
    Some(())
}

fn bitfield_word(rng: &mut Rng, table: &mut RawTable) -> Option<()> {
    let (which, word) = (BIT_FIELD_BITS_AT + rng.index(BIT_WORDS), rng.draw() as u32);
    some(rng, &mut table.bitfields)?[which] = word;
    Some(())
}

fn bitfield_twice(rng: &mut Rng, table: &mut RawTable) -> Option<()> {
    let number = some(rng, &mut table.bitfields)?[BIT_FIELD_NUMBER_AT];
    some(rng, &mut table.bitfields)?[BIT_FIELD_NUMBER_AT] = number;
    Some(())
}

fn stop_renamed(rng: &mut Rng, table: &mut RawTable) -> Option<()> {
    some(rng, &mut table.stops)?[STOP_NUMBER_AT] = rng.pick(&[0, 9_999_999, 1_000_011]);
    Some(())
}

/// Another place or length of a stop's names; no condition of 21 is about these.
fn name_elsewhere(rng: &mut Rng, table: &mut RawTable) -> Option<()> {
    let [_, place, length] = some(rng, &mut table.stops)?;
    match rng.below(3) {
        0 => *place = rng.pick(&[0, place.wrapping_add(1), place.saturating_sub(1), 1 << 31, u32::MAX]),
        1 => *length = rng.pick(&[0, length.wrapping_add(1), length.saturating_sub(1), 50, 51, u32::MAX]),
        _ => (*place, *length) = rng.pick(&[(0, 0), (0, 7), (u32::MAX, 1), (1, u32::MAX)]),
    }
    Some(())
}

/// The number of one stop for another too: rows show it, and its first interchange record.
fn stop_twice(rng: &mut Rng, table: &mut RawTable) -> Option<()> {
    let number = some(rng, &mut table.stops)?[STOP_NUMBER_AT];
    some(rng, &mut table.stops)?[STOP_NUMBER_AT] = number;
    Some(())
}

/// A call at another stop of the table.
fn call_elsewhere(rng: &mut Rng, table: &mut RawTable) -> Option<()> {
    let last = table.stops.len().checked_sub(1)?;
    let any = rng.index(last + 1);
    some_call(rng, table)?[CALL_PLACE_AT] = rng.pick(&[0, last, any]) as u32;
    Some(())
}

/// A place behind the last stop, or what a call held before there were places: the stop's number.
fn place_not_below_stops(rng: &mut Rng, table: &mut RawTable) -> Option<()> {
    let stops = table.stops.len() as u32;
    let number = table.stops.first().map_or(1_000_011, |stop| stop[STOP_NUMBER_AT]).max(stops);
    some_call(rng, table)?[CALL_PLACE_AT] = rng.pick(&[stops, stops, stops + 1, 3 * stops, number, u32::MAX]);
    Some(())
}

fn record_twice(rng: &mut Rng, table: &mut RawTable) -> Option<()> {
    let number = some(rng, &mut table.records)?[INTERCHANGE_STOP_AT];
    table.records.insert(0, [number, rng.draw() as u32, 61]);
    Some(())
}

fn one_record(rng: &mut Rng, table: &mut RawTable) -> Option<()> {
    table.records.truncate(1);
    some(rng, &mut table.records)?[INTERCHANGE_STOP_AT] = rng.pick(&[0, 9_999_999, 5]);
    Some(())
}

fn class_renamed(rng: &mut Rng, table: &mut RawTable) -> Option<()> {
    let code = &mut some(rng, &mut table.classes)?[CLASS_CODE_AT];
    *code = rng.pick(&[0, *code ^ 0x20, *code ^ 0x2000, *code | 1 << 24, u32::MAX]);
    Some(())
}

/// A code that is listed again, before or behind where it was, with another class.
fn class_twice(rng: &mut Rng, table: &mut RawTable) -> Option<()> {
    let [code, class] = *some(rng, &mut table.classes)?;
    let at = rng.index(table.classes.len() + 1);
    table.classes.insert(at, [code, if class <= 2 { 3 } else { 2 }]);
    Some(())
}

fn other_class(rng: &mut Rng, table: &mut RawTable) -> Option<()> {
    some(rng, &mut table.classes)?[CLASS_AT] = rng.below(MOST_CLASS + 1);
    Some(())
}

/// A *G whose category is not listed, or not by these bytes; no condition of 21 is about this.
fn category_elsewhere(rng: &mut Rng, table: &mut RawTable) -> Option<()> {
    let service = some_service(rng, table)?;
    let code = &mut some(rng, &mut service.categories)?[CATEGORY_CODE_AT];
    *code = rng.pick(&[0, *code ^ 0x20, u32::MAX]);
    Some(())
}

fn class_over_13(rng: &mut Rng, table: &mut RawTable) -> Option<()> {
    some(rng, &mut table.classes)?[CLASS_AT] = rng.pick(&[MOST_CLASS + 1, MOST_CLASS + 1, 15, 256, u32::MAX]);
    Some(())
}

fn other_flags(rng: &mut Rng, table: &mut RawTable) -> Option<()> {
    some_call(rng, table)?[CALL_FLAGS_AT] = rng.below(16);
    Some(())
}

/// A call's number or administration; no condition of 21 is about these.
fn other_number(rng: &mut Rng, table: &mut RawTable) -> Option<()> {
    let which = CALL_NUMBER_AT + rng.index(3);
    some_call(rng, table)?[which] = rng.pick(&[0, 100_000, 1 << 24, u32::MAX]);
    Some(())
}

fn other_time(rng: &mut Rng, table: &mut RawTable) -> Option<()> {
    let which = rng.pick(&[CALL_ARRIVAL_AT, CALL_DEPARTURE_AT]);
    some_call(rng, table)?[which] = rng.below(60_000);
    Some(())
}

/// A time a minute below the one before it, an arrival or a departure.
fn time_falls(rng: &mut Rng, table: &mut RawTable) -> Option<()> {
    let calls = &mut some_service(rng, table)?.calls;
    let at = rng.between(1, calls.len() as u32 - 1) as usize;
    if rng.coin() {
        calls[at][CALL_ARRIVAL_AT] = calls[at - 1][CALL_DEPARTURE_AT].checked_sub(1)?;
    } else {
        calls[at - 1][CALL_DEPARTURE_AT] = calls[at - 1][CALL_ARRIVAL_AT].checked_sub(1)?;
    }
    Some(())
}

/// A time of a call is there, but its flag is not.
fn time_not_stated(rng: &mut Rng, table: &mut RawTable) -> Option<()> {
    let has = rng.pick(&[ARRIVAL, DEPARTURE]);
    let flags = &mut some_call(rng, table)?[CALL_FLAGS_AT];
    let stated = *flags & has != 0;
    *flags &= !has;
    Some(()).filter(|_| stated)
}

fn other_categories(rng: &mut Rng, table: &mut RawTable) -> Option<()> {
    let service = some_service(rng, table)?;
    bend_range(rng, &mut service.categories)
}

fn other_days(rng: &mut Rng, table: &mut RawTable) -> Option<()> {
    let service = some_service(rng, table)?;
    bend_range(rng, &mut service.days)
}

/// Takes a range away, doubles it, or takes a leg from it.
fn bend_range(rng: &mut Rng, ranges: &mut Vec<[u32; 3]>) -> Option<()> {
    if ranges.is_empty() {
        return None;
    }
    let at = rng.index(ranges.len());
    let long = ranges[at][2] - ranges[at][1] > 1;
    match rng.below(4) {
        1 if ranges.len() < 50 => ranges.push(ranges[at]),
        2 if long => ranges[at][1] += 1,
        3 if long => ranges[at][2] -= 1,
        _ => {
            ranges.remove(at);
        }
    }
    Some(())
}

/// A service in three parts, of which the middle one never runs.
fn tear(rng: &mut Rng, table: &mut RawTable) -> Option<()> {
    let mut never = [0; BIT_FIELD_WORDS];
    never[BIT_FIELD_NUMBER_AT] = some(rng, &mut table.bitfields)?[BIT_FIELD_NUMBER_AT];
    let service = some_service(rng, table)?;
    let legs = service.calls.len() as u32 - 1;
    if legs < 3 {
        return None;
    }
    let a = rng.between(1, legs - 2);
    let b = rng.between(a + 1, legs - 1);
    service.days = vec![[0, 0, a], [never[BIT_FIELD_NUMBER_AT], a, b], [0, b, legs]];
    table.bitfields.insert(0, never);
    Some(())
}

fn other_repeats(rng: &mut Rng, table: &mut RawTable) -> Option<()> {
    let any = rng.below(1_000);
    let (repeats, offset) = (rng.pick(&[any, any, 0, 1, 999]), rng.pick(&[any, 0, 1, 999]));
    set_runs(rng, table, KIND_Z, [repeats, offset])
}

fn other_frequency(rng: &mut Rng, table: &mut RawTable) -> Option<()> {
    let (running_time, density) = random_frequency(rng);
    set_runs(rng, table, KIND_T, [running_time, density])
}

/// The other kind with the words that are there, where 21 lets it have them.
fn other_kind(rng: &mut Rng, table: &mut RawTable) -> Option<()> {
    let head = &mut some_service(rng, table)?.head;
    let [repeats, offset] = [head[REPEATS_AT], head[OFFSET_AT]];
    match head[KIND_AT] {
        KIND_T if repeats <= 999 && offset <= 999 => head[KIND_AT] = KIND_Z,
        KIND_Z if offset >= 1 => head[KIND_AT] = KIND_T,
        _ => return None,
    }
    Some(())
}

/// Makes some service one of this kind, with these words for repeats and offset.
fn set_runs(rng: &mut Rng, table: &mut RawTable, kind: u32, [repeats, offset]: [u32; 2]) -> Option<()> {
    let head = &mut some_service(rng, table)?.head;
    head[KIND_AT] = kind;
    head[REPEATS_AT] = repeats;
    head[OFFSET_AT] = offset;
    Some(())
}

fn other_period(rng: &mut Rng, table: &mut RawTable) -> Option<()> {
    table.days = rng.between(1, MOST_PERIOD_DAYS);
    table.first_day = table.first_day.min(LAST_DAY + 1 - table.days);
    Some(())
}

fn days_out_of_bounds(rng: &mut Rng, table: &mut RawTable) -> Option<()> {
    table.days = rng.pick(&[0, MOST_PERIOD_DAYS + 1, u32::MAX]);
    Some(())
}

fn last_day_too_late(rng: &mut Rng, table: &mut RawTable) -> Option<()> {
    table.first_day = rng.pick(&[LAST_DAY + 2 - table.days.clamp(1, MOST_PERIOD_DAYS), LAST_DAY + 1, u32::MAX]);
    Some(())
}

fn no_records(_: &mut Rng, table: &mut RawTable) -> Option<()> {
    table.records.clear();
    Some(())
}

fn under_two_calls(rng: &mut Rng, table: &mut RawTable) -> Option<()> {
    let calls = rng.index(2);
    let service = some_service(rng, table)?;
    service.calls.truncate(calls);
    service.categories.clear();
    service.days.clear();
    service.others.clear();
    Some(())
}

fn over_200_calls(rng: &mut Rng, table: &mut RawTable) -> Option<()> {
    let service = some_service(rng, table)?;
    let last = *service.calls.last()?;
    service.calls.resize(201, last);
    Some(())
}

fn over_50_categories(rng: &mut Rng, table: &mut RawTable) -> Option<()> {
    some_service(rng, table)?.categories.resize(51, [5, 0, 1]);
    Some(())
}

fn over_50_days(rng: &mut Rng, table: &mut RawTable) -> Option<()> {
    some_service(rng, table)?.days.resize(51, [0, 0, 1]);
    Some(())
}

fn over_100_others(rng: &mut Rng, table: &mut RawTable) -> Option<()> {
    some_service(rng, table)?.others.resize(101, [5, 0, 0, 1]);
    Some(())
}

fn repeats_over_999(rng: &mut Rng, table: &mut RawTable) -> Option<()> {
    let (over, right) = (rng.pick(&[1_000, 1_000, 9_999, 10_000, u32::MAX]), rng.between(1, 999));
    let words = if rng.coin() { [over, right] } else { [right, over] };
    set_runs(rng, table, KIND_Z, words)
}

fn frequency_over_9999(rng: &mut Rng, table: &mut RawTable) -> Option<()> {
    let (over, right) = (rng.pick(&[10_000, 10_000, 60_000, u32::MAX]), rng.between(1, 9_999));
    let words = if rng.coin() { [over, right] } else { [right, over] };
    set_runs(rng, table, KIND_T, words)
}

fn density_0(rng: &mut Rng, table: &mut RawTable) -> Option<()> {
    let running_time = rng.pick(&[0, 0, 1, 240, 9_999]);
    set_runs(rng, table, KIND_T, [running_time, 0])
}

fn no_such_kind(rng: &mut Rng, table: &mut RawTable) -> Option<()> {
    let words = [rng.pick(&[0, 1, 999]), rng.pick(&[1, 999])];
    let kind = rng.pick(&[2, 2, 3, 256, u32::MAX]);
    set_runs(rng, table, kind, words)
}

fn time_over_59999(rng: &mut Rng, table: &mut RawTable) -> Option<()> {
    let which = rng.pick(&[CALL_ARRIVAL_AT, CALL_DEPARTURE_AT]);
    some_call(rng, table)?[which] = rng.pick(&[60_000, u32::MAX]);
    Some(())
}

fn flags_over_15(rng: &mut Rng, table: &mut RawTable) -> Option<()> {
    some_call(rng, table)?[CALL_FLAGS_AT] = rng.pick(&[16, 17, u32::MAX]);
    Some(())
}

fn end_past_calls(rng: &mut Rng, table: &mut RawTable) -> Option<()> {
    let which = 1 + rng.index(2);
    let (range, calls) = some_range(rng, table)?;
    range[which] = rng.pick(&[calls, calls + 1, u32::MAX]);
    Some(())
}

fn other_end_past_calls(rng: &mut Rng, table: &mut RawTable) -> Option<()> {
    let which = rng.pick(&[EXTRA_FROM_AT, EXTRA_TO_AT]);
    let (range, calls) = some_other(rng, table)?;
    range[which] = rng.pick(&[calls, u32::MAX]);
    Some(())
}

fn wrong_order(rng: &mut Rng, table: &mut RawTable) -> Option<()> {
    let equal = rng.coin();
    let (range, _) = some_range(rng, table)?;
    let [given, from, to] = *range;
    *range = if equal { [given, from, from] } else { [given, to, from] };
    Some(())
}

fn other_wrong_order(rng: &mut Rng, table: &mut RawTable) -> Option<()> {
    let (range, _) = some_other(rng, table)?;
    range[EXTRA_FROM_AT] = 1;
    range[EXTRA_TO_AT] = 0;
    Some(())
}

fn under_a_header(rng: &mut Rng, words: &mut Vec<u32>) -> Option<()> {
    words.truncate(rng.index(HEADER_WORDS));
    Some(())
}

fn used_under_a_header(rng: &mut Rng, words: &mut Vec<u32>) -> Option<()> {
    words[USED_AT] = rng.below(HEADER_WORDS as u32);
    Some(())
}

fn lent_cut_short(rng: &mut Rng, words: &mut Vec<u32>) -> Option<()> {
    let used = words[USED_AT] as usize;
    words.truncate(used.saturating_sub(1 + rng.index(3)));
    Some(())
}

fn used_over_lent(rng: &mut Rng, words: &mut Vec<u32>) -> Option<()> {
    words[USED_AT] = rng.pick(&[words.len() as u32 + 1, u32::MAX]);
    Some(())
}

fn used_one_more(_: &mut Rng, words: &mut Vec<u32>) -> Option<()> {
    let used = words[USED_AT] as usize;
    words.insert(used, 0);
    words[USED_AT] += 1;
    Some(())
}

fn used_one_less(_: &mut Rng, words: &mut Vec<u32>) -> Option<()> {
    words[USED_AT] -= 1;
    Some(())
}

/// The first service's place right, but beyond words used.
fn place_beyond_used(_: &mut Rng, words: &mut Vec<u32>) -> Option<()> {
    words[SERVICES_AT] = 0;
    words[USED_AT] = words[FIRST_SERVICE_AT] - 1;
    Some(())
}

fn place_off(rng: &mut Rng, words: &mut Vec<u32>) -> Option<()> {
    let place = words[FIRST_SERVICE_AT];
    words[FIRST_SERVICE_AT] = rng.pick(&[place - 1, place + 1, 0, u32::MAX]);
    Some(())
}

/// One more bit field and these stops, or these categories, are 2^32 words together: the first service's place is right modulo 2^32 only.
fn right_modulo_2_to_32(rng: &mut Rng, words: &mut Vec<u32>) -> Option<()> {
    if rng.coin() {
        words[CLASSES_AT] += 1 << 31;
        return Some(());
    }
    words[BIT_FIELDS_AT] += 1;
    words[STOPS_AT] += (((1_u64 << 32) - BIT_FIELD_WORDS as u64) / STOP_WORDS as u64) as u32;
    Some(())
}

fn header_count_off(rng: &mut Rng, words: &mut Vec<u32>) -> Option<()> {
    let which = rng.pick(&[BIT_FIELDS_AT, STOPS_AT, INTERCHANGES_AT, SERVICES_AT, CLASSES_AT]);
    words[which] = rng.pick(&[words[which].wrapping_sub(1), words[which] + 1, 1 << 31]);
    Some(())
}

/// A count of a service that is not the sum of its parts.
fn service_count_off(rng: &mut Rng, words: &mut Vec<u32>) -> Option<()> {
    let size = words[FIRST_SERVICE_AT] as usize + SIZE_AT;
    if words[SERVICES_AT] == 0 {
        return None;
    }
    words[size] = rng.pick(&[words[size] - 1, words[size] + 1, 0, SERVICE_WORDS as u32, u32::MAX]);
    Some(())
}

fn section_count_off(rng: &mut Rng, words: &mut Vec<u32>) -> Option<()> {
    let which = words[FIRST_SERVICE_AT] as usize + rng.between(CALLS_AT as u32, EXTRAS_AT as u32) as usize;
    if words[SERVICES_AT] == 0 {
        return None;
    }
    words[which] = rng.pick(&[words[which] + 1, u32::MAX, 1 << 30, 201]);
    Some(())
}

/// A table in which some stops' names have another place or length.
pub fn names_bent(rng: &mut Rng, table: &[u32]) -> Vec<u32> {
    let mut raw = parts(table);
    for _ in 0..rng.between(1, 3) {
        name_elsewhere(rng, &mut raw);
    }
    raw.words()
}

/// Any damage to a table: bent, no table any more, or a word changed at random.
pub fn damaged_table(rng: &mut Rng, table: &[u32]) -> Vec<u32> {
    let mut raw = parts(table);
    for _ in 0..rng.below(3) {
        rng.pick(BENDS)(rng, &mut raw);
    }
    if rng.once_in(6) {
        rng.pick(NO_TABLES)(rng, &mut raw);
    }
    let mut words = raw.words();
    words.resize(words.len() + rng.pick(&[0, 0, 1, 9]), 0xAAAA_AAAA);
    match rng.below(10) {
        0 => {
            rng.pick(POKES)(rng, &mut words);
        }
        1 => {
            let at = rng.index(words.len());
            words[at] = rng.pick(&[0, 1, 2, 199, 1_000, 9_999, 10_000, 59_999, 1 << 31, u32::MAX]);
        }
        _ => {}
    }
    words
}
