//! A refusal for people: the line, the field, what it means and how to mend it. The first line of a screen is the proved answer, the
//! rest is worked out here.

use estelunya_planner::layout::MOST_FILE_BYTES;
use estelunya_planner::Period;

use super::dates::{existing, period, stated, wrong};
use super::form;
use super::lines::{
    column, columns, digits, field_at, file_name, kind, line, lines, numbered, passed_over, text, trimmed, Delivery,
    Kind, BAHNHOF, BITFELD, ECKDATEN, FPLAN, ZUGART,
};
use super::mend::cause;
use super::mend_number::entry;
use super::screen;
use super::service::{of_delivery, service_of, Days, Finding};

/// A refusal, as numbers.
#[derive(Clone, Copy, Debug, PartialEq, Eq)]
pub struct Answer {
    /// Its number.
    pub number: u32,
    /// The file; 0 for none.
    pub file: u32,
    /// The line; 0 for none.
    pub line: u32,
    /// The column; 0 unless 4.
    pub column: usize,
    /// The words needed, for 20 and 51.
    pub needed: u32,
}

impl Answer {
    /// `refused N file F line L column C`
    pub fn line_of_answer(&self, word: &str) -> String {
        format!("{} {} file {} line {} column {}", word, self.number, self.file, self.line, self.column)
    }
}

/// A refusal in words.
#[derive(Clone, Debug)]
pub struct Told {
    /// File, line and field.
    pub place: String,
    /// What the number is called.
    pub title: &'static str,
    /// What the rule is.
    pub meaning: &'static str,
    /// What is to be marked, and what is wrong here.
    pub found: Finding,
    /// What should be looked at before anything is mended.
    pub looks: Vec<String>,
    /// How to mend it.
    pub mend: String,
    /// Where REFUSALS.md says it.
    pub see: String,
}

/// The words for a refusal.
pub fn tell(delivery: &Delivery, answer: &Answer) -> Told {
    let mut found = finding(delivery, answer);
    let (title, meaning) = entry(answer);
    let cause = cause(delivery, answer);
    let place = screen::place(delivery, answer, &field(delivery, answer, &found));
    if cause.only {
        found.says.clear();
    }
    found.says.extend(cause.here);
    found.marks = cause.marks.unwrap_or(found.marks);
    let see = format!("{}#{}", super::refusals(), anchor(answer));
    Told { place, title, meaning, found, looks: cause.looks, mend: cause.mend, see }
}

/// The columns that are marked first in the refused line, and their field.
fn field(delivery: &Delivery, answer: &Answer, found: &Finding) -> String {
    let bytes = line(delivery.file(answer.file), answer.line).unwrap_or(b"");
    let (first, last) = match answer.column {
        0 => match found.marks.iter().find(|(line, _)| *line == answer.line).and_then(|(_, columns)| columns.first()) {
            Some(columns) => *columns,
            None => return String::new(),
        },
        column => field_at(answer.file, bytes, column).map_or((column, column), |field| (field.0, field.1)),
    };
    let what = match field_at(answer.file, bytes, first) {
        Some(field) if found.marks.len() == 1 && !(11..=13).contains(&answer.number) => format!(", {}", field.2),
        None if answer.number == 4 => ", which no field has".to_string(),
        _ => String::new(),
    };
    if first == last {
        format!(", column {}{}", first, what)
    } else {
        format!(", columns {}-{}{}", first, last, what)
    }
}

/// What is to be marked and said.
fn finding(delivery: &Delivery, answer: &Answer) -> Finding {
    let file = delivery.file(answer.file);
    let bytes = line(file, answer.line).unwrap_or(b"");
    let at = answer.line;
    match (answer.number, answer.file) {
        (1, _) => Finding::says(format!(
            "the file has {} bytes, {} too many",
            file.len(),
            file.len().saturating_sub(MOST_FILE_BYTES)
        )),
        (2 | 3, _) => {
            let count = lines(file).count();
            Finding::says(format!("the file has {} line{}", count, if count == 1 { "" } else { "s" }))
        }
        (4, of) => broken_form(of, bytes, answer),
        (5, _) => date(file, at, bytes),
        (6, BITFELD) => seen_earlier(file, at, bytes, 6),
        (6, ZUGART) => seen_earlier(file, at, bytes, 3),
        (6, _) => seen_earlier(file, at, bytes, 7),
        (7, BITFELD) => Finding::at(at, (1, 6), "000000 means \"daily\" and is not listed".to_string()),
        (7, BAHNHOF) if digits(bytes, 1, 7) == Some(9_999_999) => {
            Finding::at(at, (1, 7), "9999999 stands for all stops in UMSTEIGB, and is no stop".to_string())
        }
        (7, BAHNHOF) => Finding::at(at, (3, 7), "a stop's number does not end with 00000".to_string()),
        (7, _) => Finding::at(
            at,
            (1, 7),
            format!("the first record is that of {}, and must be that of 9999999", text(&columns(bytes, 1, 7))),
        ),
        (8, _) => {
            match period(delivery.file(ECKDATEN)).and_then(|period| form::frame(bytes, period.day_count() as usize)) {
                Some((place, says)) => Finding { marks: vec![(at, vec![(place, place)])], says },
                None => Finding::default(),
            }
        }
        (9, _) => absent(delivery, BAHNHOF, at, (1, 7), bytes),
        (10, _) => absent(delivery, BITFELD, at, (23, 28), bytes),
        (11, _) => Finding::at(at, (1, 3), format!("the line begins with `{}`", text(&columns(bytes, 1, 3)))),
        (12, _) => Finding::at(at, (1, 3), "no line before it begins with `*Z ` or `*T `".to_string()),
        (13, _) => match service_of(file, at, at) {
            Some(service) => {
                Finding::at(at, (1, if kind(bytes) == Kind::Attribute { 5 } else { 2 }), service.too_many(bytes))
            }
            None => Finding::default(),
        },
        (14..=19, FPLAN) => of_delivery(delivery, at).map_or_else(Finding::default, |service| match answer.number {
            14 => service.calls_found(),
            15 => service.times(at),
            16 => service.range(at),
            17 => service.cover(true),
            18 => service.cover(false),
            _ => service.stretches(&Days::of(delivery)),
        }),
        (37, _) => tariff_group(file, at, bytes),
        (38, _) => unlisted(delivery.file(ZUGART), at, bytes),
        (20 | 51, _) => Finding::says(format!("{} words are needed", answer.needed)),
        (39, _) => form::names(bytes).map_or_else(Finding::default, |(place, why)| {
            Finding::at(at, (place, place), format!("column {}: {}", place, why))
        }),
        _ => Finding::default(),
    }
}

fn broken_form(of: u32, bytes: &[u8], answer: &Answer) -> Finding {
    match field_at(of, bytes, answer.column) {
        Some(field) => Finding::at(answer.line, form::marked(bytes, field), form::why(bytes, field)),
        None => {
            let byte = form::named(column(bytes, answer.column));
            Finding::at(
                answer.line,
                (answer.column, answer.column),
                format!("column {} is {}, and no field has this column: it must be blank", answer.column, byte),
            )
        }
    }
}

fn date(eckdaten: &[u8], at: u32, bytes: &[u8]) -> Finding {
    let day = match stated(bytes) {
        Some(day) => day,
        None => return Finding::default(),
    };
    if let Some((columns, why)) = wrong(day) {
        return Finding::at(at, columns, why);
    }
    let (first, last) = match (line(eckdaten, 1).and_then(stated).and_then(existing), existing(day)) {
        (Some(first), Some(last)) => (first, last),
        _ => return Finding::default(),
    };
    let says = match Period::new(first, last) {
        None => format!("it is before the first day, {}", first),
        Some(period) => format!("from {} it is day {}: a period has at most 380", first, period.day_count()),
    };
    Finding { marks: vec![(at, vec![(1, 10)]), (1, vec![(1, 10)])], says: vec![says] }
}

fn seen_earlier(file: &[u8], at: u32, bytes: &[u8], last: usize) -> Finding {
    let number = columns(bytes, 1, last);
    let same = |(_, line): &(u32, &[u8])| !passed_over(line) && columns(line, 1, last) == number;
    match numbered(file).take_while(|(line, _)| *line < at).find(same) {
        Some((earlier, other)) => {
            let alike = if trimmed_end(other) == trimmed_end(bytes) {
                "the two lines are alike"
            } else {
                "the two lines differ"
            };
            let says = format!("{} stands in line {} already; {}", text(&number), earlier, alike);
            Finding { marks: vec![(earlier, vec![(1, last)]), (at, vec![(1, last)])], says: vec![says] }
        }
        None => Finding::default(),
    }
}

/// 9 and 10: a number that a file does not list, and where it stands otherwise, or what is listed that looks like it.
fn absent(delivery: &Delivery, of: u32, at: u32, place: (usize, usize), bytes: &[u8]) -> Finding {
    let (number, name, file) = (columns(bytes, place.0, place.1), file_name(of), delivery.file(of));
    let mut found = Finding::at(at, place, format!("there is no line of {} in {}", text(&number), name));
    let inside = |line: &[u8]| line.windows(number.len()).position(|window| window == number);
    let elsewhere = numbered(file).find_map(|(at, line)| Some((at, line, inside(line)?)));
    let apart = |line: &&[u8]| line.iter().zip(&number).filter(|(one, other)| one != other).count() == 1;
    let near = lines(file).filter(|line| !passed_over(line) && line.len() >= number.len()).filter(apart);
    let near: Vec<String> = near.take(3).map(|line| text(&line[..number.len()])).collect();
    if lines(file).all(passed_over) {
        found.says.push(format!("{} lists none at all", name));
    } else if let Some((line, bytes, place)) = elsewhere {
        found.says.push(match passed_over(bytes) {
            true => format!("line {} of {} has it, and is passed over: it begins with \"%\"", line, name),
            false => format!("line {} of {} has it in column {}, inside another line", line, name, place + 1),
        });
    } else if !near.is_empty() {
        found.says.push(format!("{} lists {}, one digit apart", name, near.join(" and ")));
    }
    found
}

/// 37: the file's first category, and this one.
fn tariff_group(file: &[u8], at: u32, bytes: &[u8]) -> Finding {
    let (first, other) = match numbered(file).find(|(_, line)| !passed_over(line)) {
        Some(first) => first,
        None => return Finding::default(),
    };
    let says = match column(bytes, 8) {
        b' ' => format!("there is no tariff group, and line {} has {}", first, form::named(column(other, 8))),
        group => format!("the tariff group is {}, and line {} has none", form::named(group), first),
    };
    let own = numbered(file).filter(|(_, line)| !passed_over(line) && column(line, 8) != b' ').count();
    let all = numbered(file).filter(|(_, line)| !passed_over(line)).count();
    let count = format!("{} of the file's {} categories have one: all must, or none", own, all);
    Finding { marks: vec![(first, vec![(8, 8)]), (at, vec![(8, 8)])], says: vec![says, count] }
}

/// 38: a code that is not listed, and what is listed that looks like it.
fn unlisted(zugart: &[u8], at: u32, bytes: &[u8]) -> Finding {
    let code = columns(bytes, 4, 6);
    let mut found = Finding::at(at, (4, 6), format!("there is no line of `{}` in ZUGART", text(&code)));
    let letters = |code: &[u8]| trimmed(code).to_ascii_uppercase();
    let alike = |(_, line): &(u32, &[u8])| !passed_over(line) && letters(&columns(line, 1, 3)) == letters(&code);
    match numbered(zugart).find(alike) {
        Some((number, line)) => {
            let listed = text(&columns(line, 1, 3));
            found.says.push(format!("line {} of ZUGART has `{}`: codes are compared byte by byte", number, listed));
        }
        None if lines(zugart).all(passed_over) => found.says.push("ZUGART lists none at all".to_string()),
        None => {}
    }
    found
}

fn trimmed_end(bytes: &[u8]) -> &[u8] {
    let end = bytes.iter().rposition(|byte| *byte != b' ').map_or(0, |last| last + 1);
    &bytes[..end]
}

/// Where REFUSALS.md says it.
pub fn anchor(answer: &Answer) -> String {
    match (answer.number, answer.file) {
        (number @ (1 | 20 | 51), _) | (number, 0) => format!("any-{}", number),
        (number, file) => format!("{}-{}", file_name(file).to_lowercase(), number),
    }
}
