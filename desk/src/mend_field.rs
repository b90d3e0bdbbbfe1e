//! How to mend a field that breaks its form (4), by its rule and what stands in it.

use super::dates::{existing, period};
use super::explain::Answer;
use super::form::{counted_digits, frame, offences};
use super::lines::{
    blank, column, columns, field_at, fields, kind, lines, passed_over, text, trimmed, Delivery, Field, Kind, Rule,
    BAHNHOF, BITFELD, ECKDATEN, FPLAN, ZUGART,
};
use super::mend::{counted, Cause};
use super::moved::too_short;

/// 4: how to mend a field, by its rule and what stands in it.
pub fn of_field(delivery: &Delivery, answer: &Answer, bytes: &[u8]) -> Cause {
    let (of, at) = (answer.file, answer.column);
    if of == ZUGART && of_section_5_5_1(bytes) {
        return Cause::here(
            "it is a line of 5.5.1 (`<text>`, `class00`), which is not taken",
            "put a \"%\" in column 1 of the line",
        );
    }
    if of == BITFELD {
        return bit_field(delivery, answer, bytes);
    }
    let field = match field_at(of, bytes, at) {
        Some(field) => field,
        None => return Cause::mend(stray(of, bytes)),
    };
    match field.3 {
        Rule::Percent => percent(delivery.file(of), bytes),
        Rule::OneOf(taken, _) if blank(&columns(bytes, at, at)) && taken.contains(&b'0') => Cause::here(
            "the standard has it in each line, 0 for none; some exporters leave it out",
            format!("write `0` in column {}", at),
        ),
        _ => match rewritten(delivery, of, bytes, field) {
            Some(good) => {
                Cause { looks: lost(bytes, field).into_iter().collect(), ..Cause::mend(written(&good, field)) }
            }
            None => Cause::mend(meant(of, field)),
        },
    }
}

/// The lines of the standard's 5.5.1, behind the categories.
pub fn of_section_5_5_1(bytes: &[u8]) -> bool {
    [&b"<"[..], b"class", b"option", b"tariff"].iter().any(|word| bytes.starts_with(word))
}

/// `write ... in columns a-b`
fn written(good: &str, field: &Field) -> String {
    if field.0 == field.1 {
        format!("write `{}` in column {}", good, field.0)
    } else {
        format!("write `{}` in columns {}-{}", good, field.0, field.1)
    }
}

/// What stands in columns that no field has may be part of a field: it is not to be blanked unread.
fn stray(of: u32, bytes: &[u8]) -> String {
    let named: Vec<String> = fields(of, bytes)
        .iter()
        .filter(|field| !matches!(field.3, Rule::Free | Rule::Percent))
        .map(
            |(first, last, name, _)| {
                if first == last {
                    format!("{} {}", first, name)
                } else {
                    format!("{}-{} {}", first, last, name)
                }
            },
        )
        .collect();
    format!("find out which field it belongs to, and write that field in its columns: {}", named.join(", "))
}

/// What a field must be where it can be said from what stands in it: zeros, capitals or underscores that are missing, a number that is not at its right edge, a date or time in another form.
fn rewritten(delivery: &Delivery, of: u32, line: &[u8], field: &Field) -> Option<String> {
    let (first, last, name, rule) = *field;
    let (bytes, width) = (columns(line, first, last.min(first + 50)), last.min(first + 50) - first + 1);
    let piece = trimmed(&bytes);
    let told = String::from_utf8(piece.to_vec()).ok()?;
    match rule {
        Rule::Digits | Rule::DigitsOrBlank | Rule::Offset => {
            // a number that has zeros in front and is still too short has lost a digit
            let short = counted_digits(piece) && piece[0] != b'0' && piece.len() < width;
            let padded = format!("{:0>width$}", told, width = width);
            let sure = match name {
                "bit field" => lines(delivery.file(BITFELD)).any(|line| line.starts_with(padded.as_bytes())),
                "repeats" => counted_digits(trimmed(&columns(line, 27, 29))),
                "offset" => counted_digits(&columns(line, 23, 25)),
                // a stop's number has no zeros in front, and a call changes its service's number rarely
                "stop" | "number of the stop" | "number" => false,
                _ => true,
            };
            (short && sure).then_some(padded)
        }
        Rule::Count(most) => {
            let fits = counted_digits(piece) && told.parse::<u32>().map_or(false, |value| value <= most);
            fits.then(|| format!("{:>width$}", told, width = width))
        }
        Rule::Filled => (bytes.starts_with(piece) && piece.len() > 1 && !piece.contains(&b' '))
            .then(|| format!("{:_<width$}", told, width = width)),
        Rule::OneOf(taken, _) => {
            let capital = bytes[0].to_ascii_uppercase();
            (bytes[0] != capital && taken.contains(&capital)).then(|| char::from(capital).to_string())
        }
        Rule::Mark => (bytes[0] == b'x').then(|| "X".to_string()),
        Rule::Time => clock(&told),
        Rule::Date => date(&String::from_utf8_lossy(trimmed(&columns(line, 1, line.len().clamp(10, 20))))),
        _ => None,
    }
    // in a line whose "%" is moved too, a byte of the field is gone
    .filter(|_| of != FPLAN || column(line, 59) == b'%')
}

/// Where one byte is missing to fill a field it may have been lost.
fn lost(line: &[u8], field: &Field) -> Option<String> {
    let (first, last, name, rule) = *field;
    let bytes = columns(line, first, last.min(first + 50));
    let (piece, short) = match rule {
        Rule::Digits | Rule::DigitsOrBlank | Rule::Offset | Rule::Filled | Rule::Count(_) => {
            (trimmed(&bytes).len(), last - first)
        }
        Rule::Time if !bytes.contains(&b':') => (bytes.iter().filter(|byte| byte.is_ascii_digit()).count(), 4),
        _ => return None,
    };
    (piece == short).then(|| format!("the {} may lack a byte: then find out which", name))
}

/// Four digits, or hours and minutes with a colon: HHHMM with its sign.
fn clock(told: &str) -> Option<String> {
    let (sign, rest) = told.strip_prefix('-').map_or((' ', told), |rest| ('-', rest));
    let (hours, minutes) = match rest.split_once(':') {
        Some(parts) => parts,
        None if rest.len() == 4 && rest.is_ascii() => rest.split_at(2),
        None => return None,
    };
    let number =
        |part: &str| part.bytes().all(|byte| byte.is_ascii_digit()).then(|| part.parse::<u32>().ok()).flatten();
    let (hours, minutes) = (number(hours)?, number(minutes).filter(|value| *value <= 59 && minutes.len() == 2)?);
    (hours <= 999).then(|| format!("{}{:03}{:02}", sign, hours, minutes))
}

/// A date with hyphens, of fewer digits, or with the year first; one with "/" may have the month first, and is left.
fn date(told: &str) -> Option<String> {
    let told = told.split(' ').next()?;
    let parts: Vec<&str> = told.split(['.', '-']).collect();
    let number =
        |part: &str| part.bytes().all(|byte| byte.is_ascii_digit()).then(|| part.parse::<u32>().ok()).flatten();
    let (day, month, year) = match parts[..] {
        [year, month, day] if year.len() == 4 => (number(day)?, number(month)?, number(year)?),
        [day, month, year] if year.len() == 4 => (number(day)?, number(month)?, number(year)?),
        [day, month, year] if year.len() == 2 => (number(day)?, number(month)?, 2000 + number(year)?),
        _ => return None,
    };
    existing((day, month, year)).map(|date| date.to_string())
}

/// What to write where only who made the file knows what is meant.
fn meant(of: u32, field: &Field) -> String {
    let (first, last, name, rule) = *field;
    let width = last.saturating_sub(first) + 1;
    let form = match rule {
        Rule::Date => "as DD.MM.YYYY, from column 1 on".to_string(),
        Rule::Digits if name == "stop" => "seven digits, as BAHNHOF has it".to_string(),
        Rule::Digits if of == BAHNHOF => {
            "seven digits; if the line is the end of the one before, broken in two, join them".to_string()
        }
        Rule::Digits => format!("{} digits, 0 in front", width),
        Rule::Positive => "four digits without sign, at least 0001".to_string(),
        Rule::DigitsOrBlank if name == "bit field" => "six digits, as BITFELD has it".to_string(),
        Rule::DigitsOrBlank => format!("{} digits, 0 in front", width),
        Rule::Offset => "three digits, and so the repeats beside it; with repeats it is at least 001".to_string(),
        Rule::Count(60) => "at most 60, at the right edge of its columns".to_string(),
        Rule::Count(_) if of == ZUGART => "0 to 13, at the right edge of its columns".to_string(),
        Rule::Count(_) => "at the right edge of its columns".to_string(),
        Rule::Name => "from column 13 on".to_string(),
        Rule::Begins => format!("from column {} on", first),
        Rule::Filled | Rule::FilledOrBlank => "six bytes, `_` for blanks".to_string(),
        Rule::End => "`#` and the call's place from 0, or a stop of seven digits".to_string(),
        Rule::Detail => "`#` and which call there, from 0, or a blank or `-` and HHHMM".to_string(),
        Rule::Time => "a blank or `-`, then three digits for hours and two for minutes, at most 59".to_string(),
        Rule::OneOf(_, taken) => taken.to_string(),
        Rule::Mark => "X or blank".to_string(),
        Rule::Hex | Rule::Percent | Rule::Free => String::new(),
    };
    let columns = if first == last { format!("column {}", first) } else { format!("columns {}-{}", first, last) };
    format!("find out the {} that is meant, and write it in {}: {}", name, columns, form)
}

/// 4 of BITFELD: zeros that are missing in front of the number or behind the digits, small letters, something behind column 103.
fn bit_field(delivery: &Delivery, answer: &Answer, bytes: &[u8]) -> Cause {
    let framed = |line: &[u8]| match period(delivery.file(ECKDATEN)) {
        Some(period) => offences(BITFELD, line).is_empty() && frame(line, period.day_count() as usize).is_none(),
        None => offences(BITFELD, line).is_empty(),
    };
    let start = bytes.iter().position(|byte| *byte == b' ').unwrap_or(0);
    if (1..6).contains(&start) && counted_digits(&bytes[..start]) {
        let zeros = "0".repeat(6 - start);
        if offences(BITFELD, &[zeros.as_bytes(), bytes].concat()).is_empty() {
            return Cause::here(
                format!(
                    "the number has {} of six digits, and the hex digits stand {} too far left",
                    start,
                    counted(6 - start, "column")
                ),
                format!("put `{}` in before column 1", zeros),
            );
        }
    }
    if offences(BITFELD, &bytes.to_ascii_uppercase()).is_empty() {
        return Cause::mend("write the hex digits in capitals");
    }
    let whole = [bytes, &b"0".repeat(103_usize.saturating_sub(bytes.len()))[..]].concat();
    if bytes.len() < 103 && framed(&whole) {
        return Cause::here(
            "zeros at its end are missing: with them its frame is right",
            format!("write 0 in each of columns {}-103", bytes.len() + 1),
        );
    }
    if answer.column > 103 {
        let more = trimmed(&bytes[103..]);
        let digits = more.iter().all(u8::is_ascii_hexdigit) && column(bytes, 104) != b' ';
        let first = &bytes[..103];
        return match digits {
            true if more.iter().all(|byte| *byte == b'0') && framed(first) => Cause::here(
                format!("{} zeros stand behind the 96 digits, whose frame is right", more.len()),
                "take out all from column 104 on",
            ),
            true => Cause::here(
                format!(
                    "there are {} hex digits, and 96 are taken: two bits, at most 380 days, two bits",
                    96 + more.len()
                ),
                "make the bit field again from the period in ECKDATEN, with 96 digits",
            ),
            false => Cause::here(
                format!(
                    "behind the digits stands `{}`, and the file has no column for it",
                    text(&more[..more.len().min(20)])
                ),
                "take out all from column 104 on; a remark has a line of its own that begins with \"%\"",
            ),
        };
    }
    match answer.column {
        1 => Cause::mend("find out the number that is meant, and write it in columns 1-6: six digits, 0 in front, as FPLAN has it"),
        7 => Cause::mend("find out whether the number or the digits are too long: 1-6 number, 7 blank, 8-103 hex digits"),
        _ if bytes.len() < 103 => Cause::mend("make the bit field again from the period in ECKDATEN: digits are gone"),
        _ => Cause::mend("find out the digit that is meant, 0 to 9 or A to F; or make the bit field again from the period in ECKDATEN"),
    }
}

/// 4 column 59: the "%" of one line is gone, or of most.
fn percent(file: &[u8], bytes: &[u8]) -> Cause {
    let plan = |line: &&[u8]| !passed_over(line) && kind(line) != Kind::Other;
    let (all, lack) =
        (lines(file).filter(plan).count(), lines(file).filter(|line| plan(line) && !line.contains(&b'%')).count());
    match bytes.iter().rposition(|byte| *byte == b'%') {
        Some(at) if at > 58 => Cause::here(
            format!("the \"%\" stands in column {}: {} too many before it", at + 1, counted(at - 58, "column")),
            "find out which field is too far right, and set the line to its columns",
        ),
        Some(at) => Cause {
            looks: vec![too_short(58 - at, at + 1)],
            ..Cause::here(
                format!("the \"%\" stands in column {}: {} too few before it", at + 1, counted(58 - at, "column")),
                format!("move all from column {} on by {} to the right", at + 1, 58 - at),
            )
        },
        None if lack * 2 > all => Cause::here(
            format!("{} of the file's {} lines have no \"%\": it was stripped with the blanks before it", lack, all),
            "put \"%\" in column 59 of each line that has none",
        ),
        None => Cause::look(
            format!("the line ends in column {} without its \"%\", which {} others have: it may have been cut there, and what stood behind is gone", bytes.len(), all - lack),
            "find out what stood behind, and write the line whole, with \"%\" in column 59",
        ),
    }
}
