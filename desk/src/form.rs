//! Why a field breaks its form (4), a name list (39) or a frame (8).

use super::dates::stated;
use super::lines::{
    blank, column, columns, digits, field_at, fields, hashed, minutes, number, text, trimmed, Field, Rule, FPLAN,
};
use super::service::bit;

/// Where a line breaks its form, from the left: the first column of each broken field, and each column that no field has and that is not blank. The first is the
/// loader's column of a refusal 4.
pub fn offences(file: u32, line: &[u8]) -> Vec<usize> {
    let (first, end) = match (file, line.first()) {
        // the kind of a line is no field
        (FPLAN, Some(b'*')) => (4, 59),
        (FPLAN, _) => (1, 59),
        _ => (1, line.len()),
    };
    let broken = fields(file, line).iter().filter(|field| !keeps(line, field)).map(|field| field.0);
    let stray = |at: &usize| column(line, *at) != b' ' && field_at(file, line, *at).is_none();
    let mut found: Vec<usize> = broken.chain((first..=end).filter(stray)).collect();
    found.sort_unstable();
    found
}

/// Whether a field of a line keeps its rule.
pub fn keeps(line: &[u8], field: &Field) -> bool {
    let (first, last, _, rule) = *field;
    if rule == Rule::Free {
        return true;
    }
    let bytes = &columns(line, first, last)[..];
    let filled = |bytes: &[u8]| !bytes.contains(&b' ');
    match rule {
        Rule::Date => stated(line).is_some(),
        Rule::Digits => bytes.iter().all(u8::is_ascii_digit),
        Rule::Positive => number(bytes).map_or(false, |value| value > 0),
        Rule::DigitsOrBlank => blank(bytes) || number(bytes).is_some(),
        Rule::Offset => offset_keeps(&columns(line, 23, 25), bytes),
        Rule::Hex => bytes.iter().all(|byte| byte.is_ascii_digit() || (b'A'..=b'F').contains(byte)),
        Rule::Count(most) => counted(bytes).map_or(false, |value| value <= most),
        Rule::Name => !blank(bytes),
        Rule::Begins => bytes[0] != b' ',
        Rule::Filled => filled(bytes),
        Rule::FilledOrBlank => blank(bytes) || filled(bytes),
        Rule::End => blank(bytes) || hashed(bytes).is_some() || number(bytes).is_some(),
        Rule::Detail => {
            let read = digits(line, end_of(line, first), end_of(line, first) + 6).is_some();
            !read || blank(bytes) || hashed(bytes).is_some() || minutes(bytes).is_some()
        }
        Rule::Time => blank(bytes) || minutes(bytes).is_some(),
        Rule::OneOf(taken, _) => taken.contains(&bytes[0]),
        Rule::Mark => b"X ".contains(&bytes[0]),
        Rule::Percent => bytes[0] == b'%',
        Rule::Free => true,
    }
}

/// The first column of the range end that a detail stands beside.
pub fn end_of(line: &[u8], detail: usize) -> usize {
    match (column(line, 2), detail) {
        (b'G', 24) => 8,
        (b'G', _) => 16,
        (_, 30) => 7,
        _ => 15,
    }
}

/// Repeats that are broken themselves ask nothing of the offset.
fn offset_keeps(repeats: &[u8], offset: &[u8]) -> bool {
    match (number(repeats), number(offset)) {
        (Some(repeats), Some(offset)) => repeats == 0 || offset > 0,
        (Some(_), None) => false,
        (None, given) => blank(offset) || (!blank(repeats) && given.is_some()),
    }
}

/// Blanks, then digits to the field's end.
fn counted(bytes: &[u8]) -> Option<u32> {
    let start = bytes.iter().position(|byte| *byte != b' ')?;
    number(&bytes[start..])
}

/// Why the bytes of a field are not what they must be, with the columns to mark.
pub fn why(line: &[u8], field: &Field) -> String {
    let (first, last, _, rule) = *field;
    let bytes = columns(line, first, last.min(first + 95));
    let stray = |good: fn(&u8) -> bool| bytes.iter().position(|byte| !good(byte));
    let not = |at: usize, what: &str| format!("column {} is {}, and {}", first + at, named(bytes[at]), what);
    match rule {
        Rule::Date => "it is not DD.MM.YYYY: two digits, a point, two digits, a point, four digits".to_string(),
        Rule::Positive if number(&bytes) == Some(0) => "it is 0, and must be at least 1".to_string(),
        Rule::Digits | Rule::Positive => {
            stray(u8::is_ascii_digit).map_or(String::new(), |at| not(at, "each column must be a digit"))
        }
        Rule::DigitsOrBlank => stray(u8::is_ascii_digit)
            .map_or(String::new(), |at| not(at, "the field is digits in each column, or all blank")),
        Rule::Offset => offset(line, &bytes),
        Rule::Hex => hex(line, &bytes),
        Rule::Count(most) => count(&bytes, most),
        Rule::Name => "the name is all blank".to_string(),
        Rule::Begins => "its first column is blank".to_string(),
        Rule::Filled => stray(|byte| *byte != b' ').map_or(String::new(), |at| not(at, "no column may be blank")),
        Rule::FilledOrBlank => "it is partly filled: all six columns or none".to_string(),
        Rule::End => "it is neither blank nor `#` and digits nor a stop of seven digits".to_string(),
        Rule::Detail if trimmed(&bytes).starts_with(b"#") => "after `#` come digits only, at least one".to_string(),
        Rule::Detail => format!("beside a stop it is blank, `#` and digits, or a time; {}", time(&bytes)),
        Rule::Time => time(&bytes),
        Rule::OneOf(_, taken) => format!("column {} is {}, and must be {}", first, named(bytes[0]), taken),
        Rule::Mark => format!("column 57 is {}, and must be X or blank", named(bytes[0])),
        Rule::Percent => format!("column 59 is {}, and must be \"%\"", named(bytes[0])),
        Rule::Free => String::new(),
    }
}

/// The columns to mark in a field: of a long one those that are wrong.
pub fn marked(line: &[u8], field: &Field) -> (usize, usize) {
    let good = |at: &usize| column(line, *at).is_ascii_digit() || (b'A'..=b'F').contains(&column(line, *at));
    match (field.3, (field.0..=field.1).find(|at| !good(at))) {
        (Rule::Hex, Some(at)) if at > line.len() => (at, field.1),
        (Rule::Hex, Some(at)) => (at, at),
        _ => (field.0, field.1),
    }
}

/// Whether there is at least one byte, and each is a digit.
pub fn counted_digits(bytes: &[u8]) -> bool {
    !bytes.is_empty() && bytes.iter().all(u8::is_ascii_digit)
}

/// A byte for people.
pub fn named(byte: u8) -> String {
    match byte {
        b' ' => "blank".to_string(),
        b'\t' => "a tab".to_string(),
        b'\r' => "a CR".to_string(),
        33..=126 => format!("`{}`", char::from(byte)),
        _ => format!("the byte hex {:02X}", byte),
    }
}

fn offset(line: &[u8], bytes: &[u8]) -> String {
    let repeats = columns(line, 23, 25);
    match (blank(&repeats), blank(bytes)) {
        (false, true) => format!("repeats {} and no offset", text(&repeats)),
        (true, false) => "an offset and no repeats".to_string(),
        _ if number(bytes) == Some(0) => format!("repeats {} and offset 000: it must be at least 001", text(&repeats)),
        _ => format!("`{}` is not three digits", text(bytes)),
    }
}

fn hex(line: &[u8], bytes: &[u8]) -> String {
    let good = |byte: &u8| byte.is_ascii_digit() || (b'A'..=b'F').contains(byte);
    match bytes.iter().position(|byte| !good(byte)) {
        Some(at) if line.len() < 103 && 7 + at >= line.len() => {
            format!("there are {} of 96 hex digits", line.len().saturating_sub(7))
        }
        Some(at) if bytes[at].is_ascii_lowercase() => {
            format!("column {} is {}: letters are capitals A to F", 8 + at, named(bytes[at]))
        }
        Some(at) => format!("column {} is {}, and each must be 0 to 9 or A to F", 8 + at, named(bytes[at])),
        None => String::new(),
    }
}

fn count(bytes: &[u8], most: u32) -> String {
    match number(trimmed(bytes)) {
        Some(value) if value > most => format!("{} is over {}", value, most),
        Some(_) => "the number does not end at the field's right edge".to_string(),
        None if blank(bytes) => "there is no number".to_string(),
        None => format!("`{}` is no number", text(bytes)),
    }
}

fn time(bytes: &[u8]) -> String {
    match (bytes[0], number(&bytes[1..])) {
        (b' ' | b'-', Some(value)) if value % 100 > 59 => format!("`{}` has minutes over 59", text(bytes)),
        (b'0'..=b'9', _) => {
            format!("`{}` has a digit where the sign stands: a blank or `-`, then five digits HHHMM", text(bytes))
        }
        (b'+', _) => "`+` is not taken: a blank or `-`, then five digits HHHMM".to_string(),
        _ => format!("`{}` is no blank or `-` and five digits HHHMM", text(bytes)),
    }
}

/// 39: the column where the list of names breaks, and why.
pub fn names(line: &[u8]) -> Option<(usize, String)> {
    let field = columns(line, 13, 62);
    let end = field.iter().rposition(|byte| *byte != b' ').map_or(0, |last| last + 1);
    let field = &field[..end];
    let (mut at, told) = (0, |at: usize, why: &str| Some((13 + at, why.to_string())));
    loop {
        let start = at;
        at += field[at..].iter().take_while(|byte| !b"$<>".contains(byte)).count();
        if at == start {
            return match field.get(at) {
                None => told(at.saturating_sub(1), "a \"$\" and no name after it"),
                Some(byte) => told(at, &format!("a name begins with {}", named(*byte))),
            };
        }
        let mut patterns = 0;
        if field[at..].starts_with(b"$<") {
            at += 1;
            while field.get(at) == Some(&b'<') {
                at = match pattern(field, at) {
                    Ok(after) => after,
                    Err((at, why)) => return told(at, why),
                };
                patterns += 1;
            }
        }
        match field.get(at) {
            None => return None,
            Some(b'$') => at += 1,
            Some(b'<') => return told(at, "no \"$\" between name and pattern"),
            Some(byte) if patterns == 0 => return told(at, &format!("{} in a name", named(*byte))),
            Some(_) => {}
        }
    }
}

/// The place after the pattern at `at`, or where and why it is none.
fn pattern(field: &[u8], at: usize) -> Result<usize, (usize, &'static str)> {
    let mut digit = false;
    for (place, byte) in (at + 1..).zip(&field[at + 1..]) {
        match byte {
            b'>' if place == at + 1 => return Err((at, "a pattern without letter and digit")),
            b'>' => return Ok(place + 1),
            b'1'..=b'9' => digit = true,
            byte if !b"defhijnopstuwx".contains(byte) => {
                return Err((place, "neither a language's letter nor a digit 1 to 9"))
            }
            _ if digit => return Err((place, "a letter after a digit")),
            _ => {}
        }
    }
    Err((at, "a pattern that is not closed by \">\" up to column 62"))
}

/// 8: the first bit that is not as the frame of a period of so many days wants it.
pub fn frame(line: &[u8], days: usize) -> Option<(usize, Vec<String>)> {
    let wanted = |at: usize| at < 2 || at == days + 2 || at == days + 3;
    let day = |at: usize| (2..days + 2).contains(&at);
    let wrong = (0..384).find(|at| !day(*at) && bit(line, *at) != wanted(*at))?;
    let place = 8 + wrong / 4;
    let which = match wrong {
        0 | 1 => "before the days".to_string(),
        _ if wrong >= days + 4 => "after the two that close the frame".to_string(),
        _ => "of the two after the days".to_string(),
    };
    let value = digits(line, place, place).map_or(column(line, place), |digit| b'0' + digit as u8);
    let mut says = vec![
        format!(
            "column {} is {}, bits {:04b}: its bit {} of 4, one {}, is {}",
            place,
            named(value),
            char::from(value).to_digit(16).unwrap_or(0),
            wrong % 4 + 1,
            which,
            u8::from(bit(line, wrong))
        ),
        format!(
            "the period has {} days, so the two ones after them are {} and {}",
            days,
            bit_place(days + 2),
            bit_place(days + 3)
        ),
    ];
    if let Some(last) = (4..384).rev().find(|at| bit(line, *at)).filter(|last| bit(line, last - 1) && *last != days + 3)
    {
        says.push(format!("the last two ones stand as for a period of {} days", last - 3));
    }
    Some((place, says))
}

fn bit_place(at: usize) -> String {
    format!("bit {} of column {}", at % 4 + 1, 8 + at / 4)
}
