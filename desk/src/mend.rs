//! What the cause of a refusal may be, and how to mend it so that what is meant stays as it is: a mend that says what to write where is safe to obey, and where only who made the file can
//! know, it says so.

use super::explain::Answer;
use super::form::offences;
use super::lines::{
    blank, column, columns, file_name, kind, line, lines, minutes, numbered, passed_over, text, Delivery, Kind,
    BAHNHOF, BITFELD, FPLAN, ZUGART,
};
use super::looks;
use super::mend_field::of_field;
use super::mend_number::of_number;
use super::moved::{line_end, moved, put_right, second, LineEnd};
use super::service::{of_delivery, Marks};

/// What lies behind a refusal.
#[derive(Clone, Debug, Default)]
pub struct Cause {
    /// Further sentences on what is wrong here.
    pub here: Vec<String>,
    /// What should be looked at before anything is mended.
    pub looks: Vec<String>,
    /// How to mend it.
    pub mend: String,
    /// Whether what is said here is all there is to say.
    pub only: bool,
    /// Other marks than those of the refused field.
    pub marks: Option<Marks>,
}

impl Cause {
    /// How to mend it, and nothing else.
    pub fn mend(mend: impl Into<String>) -> Cause {
        Cause { mend: mend.into(), ..Cause::default() }
    }

    /// With a further sentence on what is wrong here.
    pub fn here(here: impl Into<String>, mend: impl Into<String>) -> Cause {
        Cause { here: vec![here.into()], ..Cause::mend(mend) }
    }

    /// With the one sentence that says all.
    pub fn only(here: impl Into<String>, mend: impl Into<String>) -> Cause {
        Cause { only: true, ..Cause::here(here, mend) }
    }

    /// With something to look at first.
    pub fn look(look: impl Into<String>, mend: impl Into<String>) -> Cause {
        Cause { looks: vec![look.into()], ..Cause::mend(mend) }
    }
}

/// The cause of a refusal: of the file as a whole, of the line, of the field.
pub fn cause(delivery: &Delivery, answer: &Answer) -> Cause {
    let file = delivery.file(answer.file);
    let bytes = line(file, answer.line);
    let found = whole_file(delivery, answer).or_else(|| match (answer.number, bytes) {
        (4 | 11 | 12, Some(bytes)) => of_line(answer, bytes, file),
        (15, Some(bytes)) => time_elsewhere(delivery, answer, bytes).or_else(|| of_service(delivery, answer)),
        (14 | 16..=19, _) => of_service(delivery, answer),
        _ => None,
    });
    found.unwrap_or_else(|| match (answer.number, bytes) {
        (4, Some(bytes)) => of_field(delivery, answer, bytes),
        _ => of_number(delivery, answer, bytes.unwrap_or(b"")),
    })
}

/// UTF-16, a byte order mark, CR alone; a file that was cut; or these of the file in which a number was not found.
fn whole_file(delivery: &Delivery, answer: &Answer) -> Option<Cause> {
    let file = delivery.file(answer.file);
    let of = match (answer.number, answer.file) {
        (9, _) => BAHNHOF,
        (10, _) => BITFELD,
        (38, FPLAN) => ZUGART,
        (_, of) => of,
    };
    let searched = delivery.file(of);
    if let Some((says, mend)) = looks::file(searched) {
        let says = if of == answer.file { says.to_string() } else { format!("{}: {}", file_name(of), says) };
        return Some(Cause::look(says, mend));
    }
    if of != answer.file {
        let told = looks::searched(searched);
        let looks: Vec<String> = told.into_iter().map(|told| format!("{}: {}", file_name(of), told)).collect();
        if !looks.is_empty() {
            let mend = format!("find out what {} is meant to list, and mend it first, as said before", file_name(of));
            return Some(Cause { looks, ..Cause::mend(mend) });
        }
    }
    let last = lines(file).count() as u32;
    let at_end = match answer.number {
        _ if line(file, last) == Some(b"\x1A") => false,
        2 => true,
        14..=19 => of_delivery(delivery, answer.line).map_or(false, |service| service.ends == last),
        number => answer.line == last && number != 3,
    };
    (looks::cut(file) && at_end).then(|| {
        Cause::look(
            format!(
                "the file ends inside line {}, which has no line end: it was cut, and what stood behind is gone",
                last
            ),
            "get the whole file again: what is gone cannot be mended here",
        )
    })
}

/// Tabs, letters of two bytes, an indented line, small letters, a line end, a field beside its columns.
fn of_line(answer: &Answer, bytes: &[u8], file: &[u8]) -> Option<Cause> {
    let of = answer.file;
    if bytes == [0x1A] {
        let here = "the line is the byte hex 1A, which old systems put at the end of a file";
        return Some(Cause::only(here, format!("remove line {}", answer.line)));
    }
    if let Some(at) = bytes.iter().position(|byte| *byte == 0xA0).filter(|_| std::str::from_utf8(bytes).is_err()) {
        let here = format!("column {} is hex A0, a blank that does not break: it is no blank here", at + 1);
        return Some(Cause::only(here, format!("write ` ` in column {}", at + 1)));
    }
    if let Some(at) = bytes.iter().position(|byte| *byte == b'\t') {
        let here = format!("column {} is a tab, which is one column and no blank", at + 1);
        let mend = match tab_width(of, bytes) {
            Some(count) => format!("write {} in the place of each tab of the line", counted(count, "blank")),
            None => "write blanks in the place of each tab, so that the fields stand in their columns".to_string(),
        };
        return Some(Cause::only(here, mend));
    }
    if let Some(cause) = wide_letters(of, bytes) {
        return Some(cause);
    }
    if let Some(cause) = indented(of, bytes) {
        return Some(cause);
    }
    if let Some(cause) = small_kind(of, bytes).or_else(|| joined_kind(of, bytes)) {
        return Some(cause);
    }
    if let Some(found) = line_end(of, file, answer.line) {
        return Some(Cause { looks: found.look().into_iter().collect(), ..Cause::here(found.says(), found.mend()) });
    }
    if answer.number != 4 {
        return None;
    }
    let moved = moved(of, bytes, answer.column)?;
    let marks = vec![(answer.line, vec![(moved.first, moved.last)])];
    let looks = moved.look().into_iter().collect();
    Some(Cause { marks: Some(marks), looks, ..Cause::only(moved.says(), moved.mend()) })
}

/// How many blanks each tab stands for, if so many in the place of each make a good line.
fn tab_width(of: u32, bytes: &[u8]) -> Option<usize> {
    let widened = |count: usize| -> Vec<u8> {
        bytes.iter().flat_map(|byte| if *byte == b'\t' { vec![b' '; count] } else { vec![*byte] }).collect()
    };
    (1..=30).find(|count| {
        let line = widened(*count);
        (of != FPLAN || kind(&line) != Kind::Other) && offences(of, &line).is_empty()
    })
}

/// Letters of several bytes before a field move it to the right.
fn wide_letters(of: u32, bytes: &[u8]) -> Option<Cause> {
    let first = bytes.iter().position(|byte| *byte > 127)? + 1;
    let last = bytes.iter().rposition(|byte| *byte > 127)? + 1;
    let extra = bytes.len() - std::str::from_utf8(bytes).ok()?.chars().count();
    let here = format!(
        "from column {} on stand letters of several bytes (UTF-8): what follows them is moved by {}",
        first,
        counted(extra, "column")
    );
    let gap = (last + 1..=bytes.len()).find(|at| blank(&columns(bytes, *at, at + extra - 1)))?;
    let narrowed = [&bytes[..gap - 1], &bytes[(gap - 1 + extra).min(bytes.len())..]].concat();
    let mend = if offences(of, &narrowed).is_empty() {
        format!(
            "take {} out in column {}; or save the file as ISO 8859-1, one byte for each letter",
            counted(extra, "blank"),
            gap
        )
    } else {
        "save the file as ISO 8859-1, one byte for each letter; or take out a blank for each such letter".to_string()
    };
    Some(Cause::here(here, mend))
}

/// A line that begins too far right, with its "%" or without.
fn indented(of: u32, bytes: &[u8]) -> Option<Cause> {
    let start = bytes.iter().position(|byte| *byte != b' ').filter(|start| *start > 0)?;
    let good = |line: &[u8]| (of != FPLAN || kind(line) != Kind::Other) && offences(of, line).is_empty();
    let here = format!("the line is indented by {}: lines begin in column 1", counted(start, "column"));
    if good(&bytes[start..]) {
        return Some(Cause::only(here, format!("move all from column {} on by {} to the left", start + 1, start)));
    }
    let last = bytes.iter().take(58).rposition(|byte| *byte != b' ')? + 1;
    let after = put_right(bytes, start + 1, Some(last), start as isize).filter(|after| good(after))?;
    let stays = (after.len() >= 59).then_some("; the rest of the line stays")?;
    Some(Cause::only(here, format!("move columns {}-{} by {} to the left{}", start + 1, last, start, stays)))
}

fn small_kind(of: u32, bytes: &[u8]) -> Option<Cause> {
    let small =
        of == FPLAN && bytes.first() == Some(&b'*') && b"ztga".contains(&column(bytes, 2)) && column(bytes, 3) == b' ';
    let capital = char::from(column(bytes, 2).to_ascii_uppercase());
    small.then(|| {
        Cause::only(
            format!("the line begins with `*{}`: capitals are meant, `*{}`", char::from(column(bytes, 2)), capital),
            format!("write `*{}` in columns 1-2", capital),
        )
    })
}

/// `*ZFERRY`: the blank after the kind is gone.
fn joined_kind(of: u32, bytes: &[u8]) -> Option<Cause> {
    if of != FPLAN || bytes.len() < 3 || !matches!(bytes[..2], [b'*', b'Z' | b'T' | b'G' | b'A']) {
        return None;
    }
    let parted = [&bytes[..2], b" ", &bytes[2..]].concat();
    (column(bytes, 3) != b' ' && offences(of, &parted).is_empty()).then(|| {
        Cause::only(
            "the blank after the line's kind is gone",
            "move all from column 3 on by 1 to the right".to_string(),
        )
    })
}

/// 15: the time that is missing stands in the free columns before it.
fn time_elsewhere(delivery: &Delivery, answer: &Answer, bytes: &[u8]) -> Option<Cause> {
    let (first, name) = of_delivery(delivery, answer.line)?.missing_time(answer.line)?;
    let time = |at: &usize| minutes(&columns(bytes, *at, at + 5)).is_some() && !column(bytes, at + 6).is_ascii_digit();
    let at = (8..=24).rev().find(time)?;
    let (start, end) = (if column(bytes, at) == b'-' { at } else { at + 1 }, at + 5);
    let by = first - at;
    // where both times are moved the other stands in the way
    put_right(bytes, start, Some(end), -(by as isize)).filter(|after| offences(FPLAN, after).is_empty())?;
    let says = format!(
        "`{}` stands in columns {}-{}, moved by {} to the left: its field, {}, is columns {}-{}",
        text(&columns(bytes, start, end)),
        start,
        end,
        by,
        name,
        first,
        first + 5
    );
    let marks = vec![(answer.line, vec![(start, end)])];
    let mend = format!("move columns {}-{} by {} to the right; the rest of the line stays", start, end, by);
    Some(Cause { marks: Some(marks), ..Cause::only(says, mend) })
}

/// What in the lines of a service may be why it is refused as a whole: a line end that is missing, small letters, an opening line that is gone.
fn of_service(delivery: &Delivery, answer: &Answer) -> Option<Cause> {
    let service = of_delivery(delivery, answer.line)?;
    let own = || {
        numbered(delivery.file(FPLAN))
            .take_while(|(at, _)| *at <= service.ends)
            .skip_while(|(at, _)| *at < service.opening)
    };
    if let Some(found) = own().find_map(|(at, line)| Some(LineEnd::Missing(at, second(FPLAN, line)?))) {
        return Some(Cause { looks: found.look().into_iter().collect(), ..Cause::here(found.says(), found.mend()) });
    }
    let small = |line: &[u8]| {
        kind(line) == Kind::Attribute && columns(line, 4, 5) != b"VE" && columns(line, 4, 5).eq_ignore_ascii_case(b"VE")
    };
    if let Some((at, line)) = own().find(|(_, line)| answer.number >= 18 && small(line)) {
        return Some(Cause::here(
            format!("line {} has the code `{}`: capitals are meant, `VE`", at, text(&columns(line, 4, 5))),
            format!("write `VE` in columns 4-5 of line {}", at),
        ));
    }
    let own_lines: Vec<(u32, &[u8])> = own().filter(|(_, line)| !passed_over(line)).collect();
    if let Some(pair) = own_lines.windows(2).find(|pair| pair[0].1 == pair[1].1) {
        return Some(Cause::here(
            format!("line {} is line {} once more, byte for byte", pair[1].0, pair[0].0),
            format!("remove line {}", pair[1].0),
        ));
    }
    // The standard has a service's ranges before its calls.
    let called = own().position(|(_, line)| kind(line) == Kind::Call)?;
    let (late, _) = own().skip(called).find(|(_, line)| matches!(kind(line), Kind::Category | Kind::Attribute))?;
    Some(Cause::look(
        format!("line {} stands behind calls of the service that line {} opens: the *Z or *T line of another service may be missing before it", late, service.opening),
        format!("write the line that opens the service before line {}; if none is missing: {}", late, of_number(delivery, answer, b"").mend),
    ))
}

/// A number of things.
pub fn counted(count: usize, what: &str) -> String {
    format!("{} {}{}", count, what, if count == 1 { "" } else { "s" })
}
