//! BITFELD, BAHNHOF, UMSTEIGB and ZUGART: their records, each looked up by its number or code.

use std::collections::{HashMap, HashSet};

use crate::bits::{bits_in, Bits};
use crate::fields::without_trailing_blanks;
use crate::lines::{is_blank, lines, records, Broken, Line};
use crate::names::is_list;
use crate::period::Period;
use crate::refusal::{number, Offence};
use crate::table::{packed, Table};

/// The stop of the first record of UMSTEIGB, and of no stop.
const EVERY_STOP: u32 = 9_999_999;

const MOST_MINUTES: u32 = 60;
const ANY_MINUTES: u32 = 99;
pub const MOST_CLASS: u32 = 13;

/// The bit fields by number. A blank one is 0, daily.
pub struct BitFields {
    daily: Bits,
    by_number: HashMap<u32, Bits>,
}

impl BitFields {
    /// The days of a bit field, if it is "000000 or in BITFELD".
    pub fn get(&self, field: u32) -> Option<&Bits> {
        match field {
            0 => Some(&self.daily),
            _ => self.by_number.get(&field),
        }
    }
}

/// The places of the stops by number: "counted from 0" (document 02, No. 10).
pub struct Stops {
    places: HashMap<u32, u32>,
}

impl Stops {
    pub fn place(&self, stop: u32) -> Option<u32> {
        self.places.get(&stop).copied()
    }
}

/// The categories by code.
pub struct Categories {
    known: HashSet<u32>,
}

impl Categories {
    pub fn has(&self, code: u32) -> bool {
        self.known.contains(&code)
    }
}

/// BITFELD: 4, 7, 6, 8.
pub fn read_bit_fields(file: &[u8], period: &Period, table: &mut Table) -> Result<BitFields, Offence> {
    let mut fields = BitFields { daily: Bits::daily(period.days), by_number: HashMap::new() };
    for line in records(file) {
        let (field, bits) = line.formed(bit_field_in(&line))?;
        if field == 0 {
            return Err(line.offence(number::RESERVED));
        }
        if fields.by_number.insert(field, bits).is_some() {
            return Err(line.offence(number::REPEATED));
        }
        if !bits.is_framed(period.days) {
            return Err(line.offence(number::FRAME));
        }
        table.bit_field(field, &bits);
    }
    Ok(fields)
}

/// "1-6 digits, 8-103 hex digits 0-9 A-F"
fn bit_field_in(line: &Line<'_>) -> Result<(u32, Bits), Broken> {
    let field = line.digits(1, 6)?;
    line.unnamed(7, 7)?;
    let bits = bits_in(line)?;
    line.unnamed(104, line.text.len())?;
    Ok((field, bits))
}

/// BAHNHOF: 4, 39, 7, 6.
pub fn read_stops(file: &[u8], table: &mut Table) -> Result<Stops, Offence> {
    let mut stops = Stops { places: HashMap::new() };
    for line in records(file) {
        let (stop, names) = line.formed(stop_in(&line))?;
        if !is_list(names) {
            return Err(line.offence(number::NAMES));
        }
        if stop == EVERY_STOP || stop % 100_000 == 0 {
            return Err(line.offence(number::RESERVED));
        }
        let place = stops.places.len() as u32;
        if stops.places.insert(stop, place).is_some() {
            return Err(line.offence(number::REPEATED));
        }
        table.stop(stop, line.start + 12, names.len());
    }
    Ok(stops)
}

/// "1-7 digits, 9-11 free, 13-62 name not all blank, from 63 free"
fn stop_in<'a>(line: &Line<'a>) -> Result<(u32, &'a [u8]), Broken> {
    let stop = line.digits(1, 7)?;
    line.unnamed(8, 8)?;
    line.unnamed(12, 12)?;
    let name = line.columns(13, 62);
    if is_blank(name) {
        return Err(Broken(13));
    }
    Ok((stop, without_trailing_blanks(name)))
}

/// UMSTEIGB: 4, 7, 6, 9, and 2 where there is no record.
pub fn read_interchanges(file: &[u8], stops: &Stops, table: &mut Table) -> Result<(), Offence> {
    let mut seen = HashSet::new();
    for line in records(file) {
        let (stop, times) = line.formed(interchange_in(&line))?;
        let first = seen.is_empty();
        if first && stop != EVERY_STOP {
            return Err(line.offence(number::RESERVED));
        }
        if !seen.insert(stop) {
            return Err(line.offence(number::REPEATED));
        }
        if !first && stops.place(stop).is_none() {
            return Err(line.offence(number::STOP_UNKNOWN));
        }
        table.interchange(stop, times);
    }
    if seen.is_empty() {
        return Err(Offence::at(lines(file).count() as u32 + 1, number::LINE_MISSING));
    }
    Ok(())
}

/// "1-7 digits, 9-10 count to 60, 12-13 count, from 15 free"
fn interchange_in(line: &Line<'_>) -> Result<(u32, [u32; 2]), Broken> {
    let stop = line.digits(1, 7)?;
    line.unnamed(8, 8)?;
    let first = line.count(9, 10, MOST_MINUTES)?;
    line.unnamed(11, 11)?;
    let second = line.count(12, 13, ANY_MINUTES)?;
    line.unnamed(14, 14)?;
    Ok((stop, [first, second]))
}

/// ZUGART: 4, 6, 37.
pub fn read_categories(file: &[u8], table: &mut Table) -> Result<Categories, Offence> {
    let mut categories = Categories { known: HashSet::new() };
    let mut first_has_group = None;
    for line in records(file) {
        let (code, class, has_group) = line.formed(category_in(&line))?;
        if !categories.known.insert(code) {
            return Err(line.offence(number::REPEATED));
        }
        if *first_has_group.get_or_insert(has_group) != has_group {
            return Err(line.offence(number::TARIFF_GROUP));
        }
        table.category(code, class);
    }
    Ok(categories)
}

/// "code 1-3 (column 1 not blank), class 5-6 (count to 13), tariff group 8 (A to H or blank), output control 10 (0 to 7), output text 12-19 (any),
/// supplement 21 (0 to 2), flag 23 (N, B, F or blank), and from 25 free": code, class, and whether there is a tariff group.
fn category_in(line: &Line<'_>) -> Result<(u32, u32, bool), Broken> {
    let code = line.code(1, 3)?;
    line.unnamed(4, 4)?;
    let class = line.count(5, 6, MOST_CLASS)?;
    line.unnamed(7, 7)?;
    let group = line.one_of(8, b"ABCDEFGH ")?;
    line.unnamed(9, 9)?;
    line.one_of(10, b"01234567")?;
    line.unnamed(11, 11)?;
    line.unnamed(20, 20)?;
    line.one_of(21, b"012")?;
    line.unnamed(22, 22)?;
    line.one_of(23, b"NBF ")?;
    line.unnamed(24, 24)?;
    Ok((packed(code), class, group != b' '))
}
