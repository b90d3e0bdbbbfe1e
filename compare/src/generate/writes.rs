//! Tables for the writing of FPLAN (document 02, No. 11): each cause of 44, and words that look like one and are none.

use super::bend_table::Bend;
use super::raw_table::{RawService, RawTable};
use super::rng::Rng;
use crate::layout::{
    ADMINISTRATION_AT, ARRIVAL, CALL_ADMINISTRATION_AT, CALL_ARRIVAL_AT, CALL_DEPARTURE_AT, CALL_FLAGS_AT,
    CALL_NUMBER_AT, CALL_PLACE_AT, CALL_WORDS, CATEGORY_CODE_AT, DAYS_FIELD_AT, DEPARTURE, EXTRA_CODE_AT,
    EXTRA_FIELD_AT, EXTRA_FROM_AT, EXTRA_TO_AT, EXTRA_WORDS, KIND_AT, KIND_Z, NO_ALIGHTING, NO_BOARDING, NUMBER_AT,
    OFFSET_AT, REPEATS_AT, STOP_NUMBER_AT,
};

/// Each leaves a table of which a value cannot be written or would not be read back.
pub const CAUSES: &[(&str, Bend)] = &[
    ("service number", service_number),
    ("bytes over an administration", administration_over),
    ("a blank in an opening's administration", administration_blank),
    ("LF in an administration", administration_cut),
    ("repeats without offset", no_offset),
    ("bytes over a category", category_over),
    ("a category that begins blank", category_blank),
    ("LF in a category", category_cut),
    ("a bit field of operating days", days_field),
    ("bytes over a code", code_over),
    ("a code that begins blank", code_blank),
    ("LF in a code", code_cut),
    ("another *A with VE", code_ve),
    ("a bit field of another *A", other_field),
    ("the number of a stop", stop_number),
    ("a time without its flag", time_unstated),
    ("a sign without its time", sign_alone),
    ("a call's number", call_number),
    ("bytes over a call's administration", call_administration_over),
    ("a blank in a call's administration", call_administration_blank),
    ("a call's administration all blank", call_administration_all_blank),
    ("LF in a call's administration", call_administration_cut),
];

/// Values at the ends of what columns hold, and values that are not written.
pub const HARMLESS: &[(&str, Bend)] = &[
    ("the greatest numbers", greatest_numbers),
    ("bytes of all sorts", odd_bytes),
    ("a stop nobody calls at", unused_stop),
    ("a bit field nobody names", unused_field),
    ("an offset without repeats", offset_alone),
    ("a sign and time 0", sign_and_midnight),
    ("a category that is not listed", unlisted),
];

/// Numbers of 1 more than so much, or far more.
fn over(rng: &mut Rng, most: u32) -> u32 {
    rng.pick(&[most + 1, most + 1, u32::MAX, 1 << 31])
}

/// Puts a byte into some of the last so many bytes of a word.
fn put_byte(rng: &mut Rng, word: u32, bytes: u32, byte: u8) -> u32 {
    let shift = 8 * rng.below(bytes);
    word & !(0xFF << shift) | u32::from(byte) << shift
}

fn some<'a, T>(rng: &mut Rng, items: &'a mut [T]) -> Option<&'a mut T> {
    if items.is_empty() {
        return None;
    }
    let at = rng.index(items.len());
    items.get_mut(at)
}

fn service<'a>(rng: &mut Rng, table: &'a mut RawTable) -> Option<&'a mut RawService> {
    some(rng, &mut table.services)
}

fn call<'a>(rng: &mut Rng, table: &'a mut RawTable) -> Option<&'a mut [u32; CALL_WORDS]> {
    let service = service(rng, table)?;
    some(rng, &mut service.calls)
}

fn category<'a>(rng: &mut Rng, table: &'a mut RawTable) -> Option<&'a mut u32> {
    let service = service(rng, table)?;
    some(rng, &mut service.categories).map(|range| &mut range[CATEGORY_CODE_AT])
}

/// Another *A of some service; where it has none it gets one.
fn other<'a>(rng: &mut Rng, table: &'a mut RawTable) -> Option<&'a mut [u32; EXTRA_WORDS]> {
    let others = &mut service(rng, table)?.others;
    if others.is_empty() {
        let mut new = [0; EXTRA_WORDS];
        new[EXTRA_CODE_AT] = u32::from_be_bytes(*b"\0\0FA");
        new[EXTRA_FROM_AT] = 0;
        new[EXTRA_TO_AT] = 1;
        others.push(new);
    }
    some(rng, others)
}

fn service_number(rng: &mut Rng, table: &mut RawTable) -> Option<()> {
    service(rng, table)?.head[NUMBER_AT] = over(rng, 99_999);
    Some(())
}

fn administration<'a>(rng: &mut Rng, table: &'a mut RawTable) -> Option<&'a mut u32> {
    let at = ADMINISTRATION_AT + rng.index(2);
    Some(&mut service(rng, table)?.head[at])
}

fn administration_over(rng: &mut Rng, table: &mut RawTable) -> Option<()> {
    *administration(rng, table)? |= rng.pick(&[1 << 24, 0xFF00_0000]);
    Some(())
}

fn administration_blank(rng: &mut Rng, table: &mut RawTable) -> Option<()> {
    let word = administration(rng, table)?;
    *word = put_byte(rng, *word, 3, b' ');
    Some(())
}

fn administration_cut(rng: &mut Rng, table: &mut RawTable) -> Option<()> {
    let word = administration(rng, table)?;
    *word = put_byte(rng, *word, 3, b'\n');
    Some(())
}

fn no_offset(rng: &mut Rng, table: &mut RawTable) -> Option<()> {
    let head = &mut service(rng, table)?.head;
    head[KIND_AT] = KIND_Z;
    head[REPEATS_AT] = rng.pick(&[1, 2, 999]);
    head[OFFSET_AT] = 0;
    Some(())
}

fn category_over(rng: &mut Rng, table: &mut RawTable) -> Option<()> {
    *category(rng, table)? |= rng.pick(&[1 << 24, 0x2000_0000]);
    Some(())
}

fn category_blank(rng: &mut Rng, table: &mut RawTable) -> Option<()> {
    let word = category(rng, table)?;
    *word = *word & 0xFFFF | u32::from(b' ') << 16;
    Some(())
}

fn category_cut(rng: &mut Rng, table: &mut RawTable) -> Option<()> {
    let word = category(rng, table)?;
    *word = put_byte(rng, *word, 3, b'\n');
    Some(())
}

fn days_field(rng: &mut Rng, table: &mut RawTable) -> Option<()> {
    let service = service(rng, table)?;
    some(rng, &mut service.days)?[DAYS_FIELD_AT] = over(rng, 999_999);
    Some(())
}

fn code_over(rng: &mut Rng, table: &mut RawTable) -> Option<()> {
    other(rng, table)?[EXTRA_CODE_AT] |= rng.pick(&[1 << 16, 1 << 24, 0xFF00_0000]);
    Some(())
}

fn code_blank(rng: &mut Rng, table: &mut RawTable) -> Option<()> {
    let code = &mut other(rng, table)?[EXTRA_CODE_AT];
    *code = *code & 0xFF | u32::from(b' ') << 8;
    Some(())
}

fn code_cut(rng: &mut Rng, table: &mut RawTable) -> Option<()> {
    let code = &mut other(rng, table)?[EXTRA_CODE_AT];
    *code = put_byte(rng, *code, 2, b'\n');
    Some(())
}

fn code_ve(rng: &mut Rng, table: &mut RawTable) -> Option<()> {
    other(rng, table)?[EXTRA_CODE_AT] = u32::from_be_bytes(*b"\0\0VE");
    Some(())
}

fn other_field(rng: &mut Rng, table: &mut RawTable) -> Option<()> {
    other(rng, table)?[EXTRA_FIELD_AT] = over(rng, 999_999);
    Some(())
}

/// Of a stop that is called at.
fn stop_number(rng: &mut Rng, table: &mut RawTable) -> Option<()> {
    let place = call(rng, table)?[CALL_PLACE_AT] as usize;
    table.stops[place][STOP_NUMBER_AT] = over(rng, 9_999_999);
    Some(())
}

/// The flags and the time of an arrival or of a departure.
fn sides(rng: &mut Rng) -> (usize, u32, u32) {
    rng.pick(&[(CALL_ARRIVAL_AT, ARRIVAL, NO_ALIGHTING), (CALL_DEPARTURE_AT, DEPARTURE, NO_BOARDING)])
}

fn time_unstated(rng: &mut Rng, table: &mut RawTable) -> Option<()> {
    let (time, stated, barred) = sides(rng);
    let call = call(rng, table)?;
    call[CALL_FLAGS_AT] &= !(stated | barred);
    call[time] = rng.pick(&[1, 480, 59_999]);
    Some(())
}

fn sign_alone(rng: &mut Rng, table: &mut RawTable) -> Option<()> {
    let (time, stated, barred) = sides(rng);
    let call = call(rng, table)?;
    call[CALL_FLAGS_AT] = call[CALL_FLAGS_AT] & !stated | barred;
    call[time] = rng.pick(&[0, 0, 7]);
    Some(())
}

fn call_number(rng: &mut Rng, table: &mut RawTable) -> Option<()> {
    call(rng, table)?[CALL_NUMBER_AT] = over(rng, 99_999);
    Some(())
}

fn call_administration<'a>(rng: &mut Rng, table: &'a mut RawTable) -> Option<&'a mut u32> {
    let at = CALL_ADMINISTRATION_AT + rng.index(2);
    Some(&mut call(rng, table)?[at])
}

fn call_administration_over(rng: &mut Rng, table: &mut RawTable) -> Option<()> {
    *call_administration(rng, table)? |= rng.pick(&[1 << 24, 0xFF00_0000]);
    Some(())
}

fn call_administration_blank(rng: &mut Rng, table: &mut RawTable) -> Option<()> {
    let word = call_administration(rng, table)?;
    *word = put_byte(rng, *word, 3, b' ');
    Some(())
}

fn call_administration_all_blank(rng: &mut Rng, table: &mut RawTable) -> Option<()> {
    call(rng, table)?[CALL_ADMINISTRATION_AT..=CALL_ADMINISTRATION_AT + 1].fill(u32::from_be_bytes(*b"\0   "));
    Some(())
}

fn call_administration_cut(rng: &mut Rng, table: &mut RawTable) -> Option<()> {
    let word = call_administration(rng, table)?;
    *word = put_byte(rng, *word, 3, b'\n');
    Some(())
}

fn greatest_numbers(rng: &mut Rng, table: &mut RawTable) -> Option<()> {
    let service = service(rng, table)?;
    service.head[NUMBER_AT] = 99_999;
    let call = some(rng, &mut service.calls)?;
    call[CALL_NUMBER_AT] = 99_999;
    some(rng, &mut service.days)?[DAYS_FIELD_AT] = 999_999;
    let place = call[CALL_PLACE_AT] as usize;
    table.stops[place][STOP_NUMBER_AT] = 9_999_999;
    Some(())
}

/// CR, 0, "%", "$" and the like are bytes as others are; a category and a code may have blanks behind their first byte.
fn odd_bytes(rng: &mut Rng, table: &mut RawTable) -> Option<()> {
    *administration(rng, table)? = u32::from_be_bytes(*b"\0\r\0%");
    *call_administration(rng, table)? = u32::from_be_bytes(*b"\0\xFF$\r");
    *category(rng, table)? = u32::from_be_bytes(*b"\0%  ");
    other(rng, table)?[EXTRA_CODE_AT] = u32::from_be_bytes(*b"\0\0\r ");
    Some(())
}

fn unused_stop(_: &mut Rng, table: &mut RawTable) -> Option<()> {
    table.stops.push([u32::MAX; 3]);
    Some(())
}

fn unused_field(_: &mut Rng, table: &mut RawTable) -> Option<()> {
    table.bitfields.push([u32::MAX; 13]);
    Some(())
}

fn offset_alone(rng: &mut Rng, table: &mut RawTable) -> Option<()> {
    let head = &mut service(rng, table)?.head;
    head[KIND_AT] = KIND_Z;
    head[REPEATS_AT] = 0;
    head[OFFSET_AT] = rng.pick(&[0, 1, 999]);
    Some(())
}

fn sign_and_midnight(rng: &mut Rng, table: &mut RawTable) -> Option<()> {
    let (time, stated, barred) = sides(rng);
    let call = call(rng, table)?;
    call[CALL_FLAGS_AT] |= stated | barred;
    call[time] = 0;
    Some(())
}

fn unlisted(rng: &mut Rng, table: &mut RawTable) -> Option<()> {
    *category(rng, table)? = u32::from_be_bytes(*b"\0?? ");
    Some(())
}

/// A table with a cause of 44, with something harmless, or with both; and what they are called.
pub fn bent_for_writing(rng: &mut Rng, table: &RawTable) -> (RawTable, Vec<&'static str>) {
    let (mut raw, mut names) = (table.clone(), Vec::new());
    let mut bend = |rng: &mut Rng, (name, bend): (&'static str, Bend)| {
        if bend(rng, &mut raw).is_some() {
            names.push(name);
        }
    };
    if rng.once_in(3) {
        let harmless = rng.pick(HARMLESS);
        bend(rng, harmless);
    }
    if !rng.once_in(4) {
        let cause = rng.pick(CAUSES);
        bend(rng, cause);
    }
    (raw, names)
}
