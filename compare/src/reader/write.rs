//! Document 02, No. 11: "Write FPLAN."

use super::ask::{table, Call, Over, Service, Table};
use super::runs::Runs;
use crate::layout::{ARRIVAL, DEPARTURE, NO_ALIGHTING, NO_BOARDING};

/// Columns of a line up to its "%"; LF follows directly.
const LINE: usize = 59;

/// The bytes written; 45 has the bytes needed.
#[derive(Clone, Copy, Debug, PartialEq, Eq)]
pub enum Written {
    Bytes(usize),
    Refused { number: u32, needed: usize },
}

/// "Refusals: 21; 44 for a value that its columns cannot hold or that would answer 4 when read; 45 text buffer too short, with the bytes needed; the buffer then stays."
pub fn write(words: &[u32], lent: &mut [u8]) -> Written {
    let text = match text_of(words) {
        Ok(text) => text,
        Err(number) => return Written::Refused { number, needed: 0 },
    };
    match lent.get_mut(..text.len()) {
        Some(front) => front.copy_from_slice(&text),
        None => return Written::Refused { number: 45, needed: text.len() },
    }
    Written::Bytes(text.len())
}

/// The text of a table; all of its refusals but 45.
pub fn text_of(words: &[u32]) -> Result<Vec<u8>, u32> {
    let table = table(words).ok_or(21_u32)?;
    let mut text = Vec::new();
    for service in &table.services {
        for line in lines(&table, service).ok_or(44_u32)? {
            text.extend(line);
            text.push(b'\n');
        }
    }
    Ok(text)
}

/// "per service, the opening line, all *G, all *A VE, other *A, then calls"; `None` is 44.
fn lines(table: &Table<'_>, service: &Service) -> Option<Vec<Vec<u8>>> {
    let mut lines = vec![opening(service)?];
    for range in &service.categories {
        lines.push(ranged(b"*G", 3, range.given, [8, 16], range, None)?);
    }
    for range in &service.days {
        lines.push(ranged(b"*A", 2, packed(b"VE"), [7, 15], range, Some(range.given))?);
    }
    for (range, code) in service.others.iter().zip(&service.codes) {
        // It would be read as operating days.
        if *code == packed(b"VE") {
            return None;
        }
        lines.push(ranged(b"*A", 2, *code, [7, 15], range, Some(range.given))?);
    }
    for call in &service.calls {
        lines.push(schedule(table.stop_at(call.place), call)?);
    }
    Some(lines)
}

/// A line of blanks that ends with "%" in column 59.
struct Columns(Vec<u8>);

impl Columns {
    fn of(kind: &[u8]) -> Columns {
        let mut line = vec![b' '; LINE];
        line[LINE - 1] = b'%';
        Columns(line).put(1, kind)
    }

    fn put(mut self, column: usize, field: &[u8]) -> Columns {
        self.0[column - 1..column - 1 + field.len()].copy_from_slice(field);
        self
    }
}

/// "repeats and offset always as digits"
fn opening(service: &Service) -> Option<Vec<u8>> {
    let administration = administration(service.administration)?;
    let line = |kind: &[u8]| Some(Columns::of(kind).put(4, &digits(service.number, 5)?).put(10, &administration));
    let line = match service.runs {
        // "One or more repeats need an offset of at least 1, else 4."
        Runs::Repeated { repeats, offset: 0 } if repeats > 0 => return None,
        Runs::Repeated { repeats, offset } => line(b"*Z")?.put(23, &digits(repeats, 3)?).put(27, &digits(offset, 3)?),
        Runs::Frequent { running_time, density } => {
            line(b"*T")?.put(17, &digits(running_time, 4)?).put(22, &digits(density, 4)?)
        }
    };
    Some(line.0)
}

/// A *G or *A line: "both range ends as "#" and index to the field's right edge, details and names blank, bit fields as six digits".
fn ranged(
    kind: &[u8],
    bytes: usize,
    code: u32,
    [from, to]: [usize; 2],
    range: &Over,
    field: Option<u32>,
) -> Option<Vec<u8>> {
    let code = unpacked(code, bytes)?;
    // "4 not blank"
    if code[0] == b' ' {
        return None;
    }
    let end = |index: u32| format!("{:>7}", format!("#{}", index)).into_bytes();
    let line = Columns::of(kind).put(4, &code).put(from, &end(range.from)).put(to, &end(range.to));
    match field {
        Some(field) => Some(line.put(23, &digits(field, 6)?).0),
        None => Some(line.0),
    }
}

/// "number and administration on each call"
fn schedule(stop: u32, call: &Call) -> Option<Vec<u8>> {
    let arrival = time(call.arrival, call.flags & ARRIVAL != 0, call.flags & NO_ALIGHTING != 0)?;
    let departure = time(call.departure, call.flags & DEPARTURE != 0, call.flags & NO_BOARDING != 0)?;
    let line = Columns::of(&digits(stop, 7)?).put(30, &arrival).put(37, &departure);
    Some(line.put(44, &digits(call.number, 5)?).put(50, &administration(call.administration)?).0)
}

/// So many digits, unless they cannot hold it.
fn digits(number: u32, count: usize) -> Option<Vec<u8>> {
    let text = format!("{:0>width$}", number, width = count);
    Some(text.into_bytes()).filter(|text| text.len() == count)
}

/// "A time is blank, or a blank or "-" and five digits HHHMM": blank only if there is neither a time nor a sign to keep.
fn time(minutes: u32, stated: bool, barred: bool) -> Option<Vec<u8>> {
    match (stated, barred) {
        (false, true) => None,
        (false, false) if minutes > 0 => None,
        (false, false) => Some(vec![b' '; 6]),
        (true, _) => {
            let sign = if barred { "-" } else { " " };
            Some(format!("{}{:03}{:02}", sign, minutes / 60, minutes % 60).into_bytes())
        }
    }
}

/// Two words of three bytes, of which none is blank: in an opening line a blank answers 4, in a call some blanks do too, and six would repeat the call before.
fn administration([first, second]: [u32; 2]) -> Option<Vec<u8>> {
    let bytes = [unpacked(first, 3)?, unpacked(second, 3)?].concat();
    Some(bytes).filter(|bytes| !bytes.contains(&b' '))
}

/// "Bytes share a word first byte highest": so many bytes of a word that has no more, and no LF among them, which would cut the line.
fn unpacked(word: u32, bytes: usize) -> Option<Vec<u8>> {
    let all = word.to_be_bytes();
    let (over, field) = all.split_at(4 - bytes);
    if over.iter().any(|byte| *byte != 0) || field.contains(&b'\n') {
        return None;
    }
    Some(field.to_vec())
}

fn packed(bytes: &[u8]) -> u32 {
    bytes.iter().fold(0, |word, byte| word << 8 | u32::from(*byte))
}
