//! FPLAN: its lines, service by service.

use crate::fields::End;
use crate::lines::{is_blank, records, Broken, Line};
use crate::refusal::{number, Offence};
use crate::route::Call;
use crate::sections::{BitFields, Categories, Stops};
use crate::service::{Attribute, Opening, Range, Service};
use crate::table::{packed, Table, KIND_T, KIND_Z};

/// "in one service over 200 calls, 50 *G, 50 *A VE or 100 other *A"
const MOST_CALLS: usize = 200;
const MOST_CATEGORIES: usize = 50;
const MOST_DAYS: usize = 50;
const MOST_OTHERS: usize = 100;

/// What the files before it list.
pub struct Known {
    pub stops: Stops,
    pub fields: BitFields,
    pub categories: Categories,
}

/// The kinds of lines.
enum Kind {
    Z,
    T,
    G,
    A,
    Schedule,
}

/// ""*Z ", "*G ", "*A " or a digit", and "*T " of document 02, No. 8; columns past the end read as blank.
fn kind_of(line: &Line<'_>) -> Option<Kind> {
    match line.text {
        [b'0'..=b'9', ..] => Some(Kind::Schedule),
        [b'*', letter] | [b'*', letter, b' ', ..] => match letter {
            b'Z' => Some(Kind::Z),
            b'T' => Some(Kind::T),
            b'G' => Some(Kind::G),
            b'A' => Some(Kind::A),
            _ => None,
        },
        _ => None,
    }
}

/// "service by service: every line's own checks, then the service's checks"
pub fn read(file: &[u8], known: &Known, table: &mut Table) -> Result<(), Offence> {
    let Known { stops, fields, categories } = known;
    let mut current: Option<Service> = None;
    for line in records(file) {
        match (kind_of(&line), &mut current) {
            (Some(Kind::Z), _) => {
                finish(&current, fields, table)?;
                current = Some(Service::new(line.formed(opening_in(&line))?));
            }
            (Some(Kind::T), _) => {
                finish(&current, fields, table)?;
                current = Some(Service::new(line.formed(frequency_in(&line))?));
            }
            (_, None) => return Err(line.offence(number::NOT_OPENED)),
            (None, _) => return Err(line.offence(number::OTHER_KIND)),
            (Some(Kind::G), Some(service)) => add_category(&line, service, categories)?,
            (Some(Kind::A), Some(service)) => add_attribute(&line, service, fields)?,
            (Some(Kind::Schedule), Some(service)) => add_call(&line, service, stops)?,
        }
    }
    finish(&current, fields, table)
}

/// The checks and the words of a service whose lines are all there.
fn finish(service: &Option<Service>, fields: &BitFields, table: &mut Table) -> Result<(), Offence> {
    if let Some(service) = service {
        table.service(service, &service.check(fields)?);
    }
    Ok(())
}

/// *G: 4, 13, 38.
fn add_category(line: &Line<'_>, service: &mut Service, categories: &Categories) -> Result<(), Offence> {
    let range = line.formed(category_in(line))?;
    push(&mut service.categories, range, MOST_CATEGORIES, line)?;
    match categories.has(range.given) {
        true => Ok(()),
        false => Err(line.offence(number::CATEGORY_UNKNOWN)),
    }
}

/// *A: 4, 13, 10.
fn add_attribute(line: &Line<'_>, service: &mut Service, fields: &BitFields) -> Result<(), Offence> {
    let (range, is_days) = line.formed(attribute_in(line))?;
    let Range { line: at, given: Attribute { field, .. }, from, to } = range;
    if is_days {
        push(&mut service.days, Range { line: at, given: field, from, to }, MOST_DAYS, line)?;
    } else {
        push(&mut service.others, range, MOST_OTHERS, line)?;
    }
    match fields.get(field) {
        Some(_) => Ok(()),
        None => Err(line.offence(number::FIELD_UNKNOWN)),
    }
}

/// A schedule line: 4, 13, 9.
fn add_call(line: &Line<'_>, service: &mut Service, stops: &Stops) -> Result<(), Offence> {
    let call = line.formed(call_in(line, service.holding()))?;
    if service.calls.len() == MOST_CALLS {
        return Err(line.offence(number::TOO_MANY));
    }
    let place = stops.place(call.stop).ok_or_else(|| line.offence(number::STOP_UNKNOWN))?;
    service.calls.push(Call { place, ..call });
    Ok(())
}

/// Takes an item up, unless there are as many as there may be.
fn push<T>(items: &mut Vec<T>, item: T, most: usize, line: &Line<'_>) -> Result<(), Offence> {
    if items.len() == most {
        return Err(line.offence(number::TOO_MANY));
    }
    items.push(item);
    Ok(())
}

/// "4-8 digits, 10-15 six non-blank bytes, 23-25 repeats and 27-29 offset"
fn opening_in(line: &Line<'_>) -> Result<Opening, Broken> {
    let (number, administration) = name_in(line)?;
    line.unnamed(16, 22)?;
    let (repeats, offset) = repeats_in(line)?;
    line.unnamed(30, 58)?;
    line.percent()?;
    Ok(Opening { line: line.number, number, administration, repeats, offset, kind: KIND_Z })
}

/// "running time in minutes 17-20, density in seconds 22-25. Both are digits; density is at least 1."
fn frequency_in(line: &Line<'_>) -> Result<Opening, Broken> {
    let (number, administration) = name_in(line)?;
    line.unnamed(16, 16)?;
    let running_time = line.digits(17, 20)?;
    line.unnamed(21, 21)?;
    let density = match line.digits(22, 25)? {
        0 => return Err(Broken(22)),
        density => density,
    };
    line.unnamed(26, 58)?;
    line.percent()?;
    Ok(Opening { line: line.number, number, administration, repeats: running_time, offset: density, kind: KIND_T })
}

/// Number and administration, columns 4 to 15 of a line that opens a service.
fn name_in(line: &Line<'_>) -> Result<(u32, [u32; 2]), Broken> {
    let number = line.digits(4, 8)?;
    line.unnamed(9, 9)?;
    Ok((number, two_words(line.no_blanks(10, 15)?)))
}

/// An administration's six bytes, "two words of three bytes".
fn two_words(administration: &[u8]) -> [u32; 2] {
    [packed(&administration[..3]), packed(&administration[3..])]
}

/// "digits, both or neither blank"; "Blank repeats mean 0 and 0. One or more repeats need an offset of at least 1, else 4."
fn repeats_in(line: &Line<'_>) -> Result<(u32, u32), Broken> {
    let repeats = line.digits_or_blank(23, 25)?;
    line.unnamed(26, 26)?;
    match (repeats, line.digits_or_blank(27, 29)?) {
        (None, None) => Ok((0, 0)),
        (Some(repeats), Some(offset)) if repeats == 0 || offset > 0 => Ok((repeats, offset)),
        _ => Err(Broken(27)),
    }
}

/// "4-6 category (4 not blank), 8-14 from, 16-22 to, 24-29 from-detail, 31-36 to-detail"
fn category_in(line: &Line<'_>) -> Result<Range<u32>, Broken> {
    let category = line.code(4, 6)?;
    line.unnamed(7, 7)?;
    let from = line.end(8, 14)?;
    line.unnamed(15, 15)?;
    let to = line.end(16, 22)?;
    line.unnamed(23, 23)?;
    let (from, to) = details_in(line, from, to, 24, 31)?;
    line.unnamed(37, 58)?;
    line.percent()?;
    Ok(Range { line: line.number, given: packed(category), from, to })
}

/// "4-5 code (4 not blank; "VE" means operating days), 7-13 from, 15-21 to, 23-28 bit field digits or blank, 30-35 and
/// 37-42 details". "A blank bit field means 000000, daily."
fn attribute_in(line: &Line<'_>) -> Result<(Range<Attribute>, bool), Broken> {
    let code = line.code(4, 5)?;
    line.unnamed(6, 6)?;
    let from = line.end(7, 13)?;
    line.unnamed(14, 14)?;
    let to = line.end(15, 21)?;
    line.unnamed(22, 22)?;
    let field = line.digits_or_blank(23, 28)?.unwrap_or(0);
    line.unnamed(29, 29)?;
    let (from, to) = details_in(line, from, to, 30, 37)?;
    line.unnamed(43, 58)?;
    line.percent()?;
    let given = Attribute { code: packed(code), field };
    Ok((Range { line: line.number, given, from, to }, code == b"VE"))
}

/// Both ends with their details of six columns, one blank between.
fn details_in(line: &Line<'_>, from: End, to: End, at_from: usize, at_to: usize) -> Result<(End, End), Broken> {
    let from = line.detailed(from, at_from, at_from + 5)?;
    line.unnamed(at_from + 6, at_from + 6)?;
    Ok((from, line.detailed(to, at_to, at_to + 5)?))
}

/// "1-7 digits, 9-29 free, 30-35 arrival, 37-42 departure, 44-48 digits or blank, 50-55 all or no blanks, 57 X or blank".
/// Document 02, No. 5: a blank number or administration is the one that holds before. The stop's place is not known here.
fn call_in(line: &Line<'_>, (number, administration): (u32, [u32; 2])) -> Result<Call, Broken> {
    let stop = line.digits(1, 7)?;
    line.unnamed(8, 8)?;
    let arrival = line.time(30, 35)?;
    line.unnamed(36, 36)?;
    let departure = line.time(37, 42)?;
    line.unnamed(43, 43)?;
    let number = line.digits_or_blank(44, 48)?.unwrap_or(number);
    line.unnamed(49, 49)?;
    let administration = match line.columns(50, 55) {
        blank if is_blank(blank) => administration,
        _ => two_words(line.no_blanks(50, 55)?),
    };
    line.unnamed(56, 56)?;
    if line.columns(57, 57) != b"X" {
        line.unnamed(57, 57)?;
    }
    line.unnamed(58, 58)?;
    line.percent()?;
    Ok(Call { line: line.number, stop, place: 0, arrival, departure, number, administration })
}
