//! The lines of a delivery, each with what it stands for, and the bytes that they make.

use super::ends::{from_text, hours_minutes, to_text};
use super::names::{list, written};
use super::plan::{date_of, Given, Plan, Range, Runs, Service};
use super::rng::Rng;
use crate::columns::bit_digits;

/// What a line stands for; the numbers are places in the plan.
#[derive(Clone, Copy, Debug, PartialEq, Eq)]
pub enum Tag {
    Skipped,
    Free,
    Date(usize),
    BitField(usize),
    Stop(usize),
    Record(usize),
    Category(usize),
    Z(usize),
    T(usize),
    Call(usize, usize),
    G(usize, usize),
    Ve(usize, usize),
    Other(usize, usize),
}

#[derive(Clone, Debug)]
pub struct Row {
    pub tag: Tag,
    pub text: Vec<u8>,
}

#[derive(Clone, Debug)]
pub struct Sheet {
    pub files: [Vec<Row>; 6],
}

/// A line of blanks to write fields into by their columns.
struct Blanks(Vec<u8>);

impl Blanks {
    fn put(&mut self, column: usize, text: &[u8]) -> &mut Self {
        let end = column - 1 + text.len();
        if self.0.len() < end {
            self.0.resize(end, b' ');
        }
        self.0[column - 1..end].copy_from_slice(text);
        self
    }
}

/// The lines of a plan, with skipped lines between.
pub fn sheet(rng: &mut Rng, plan: &Plan) -> Sheet {
    let mut files = [
        dates(rng, plan),
        bitfields(rng, plan),
        stops(rng, plan),
        interchange(rng, plan),
        services(rng, plan),
        categories(rng, plan),
    ];
    let rare = rng.pick(&[4, 12, 1_000, 1_000]);
    for rows in &mut files[1..] {
        insert_skipped(rng, rows, rare);
    }
    Sheet { files }
}

/// A line that counts and says nothing.
pub fn skipped_row(rng: &mut Rng) -> Row {
    let mut text = vec![b' '; rng.pick(&[0, 0, 1, 58, 70])];
    if rng.coin() {
        text = b"%".to_vec();
        let length = rng.pick(&[0, 3, 60]);
        text.extend(rng.text(length));
    }
    Row { tag: Tag::Skipped, text }
}

fn insert_skipped(rng: &mut Rng, rows: &mut Vec<Row>, rare: u32) {
    for at in (0..=rows.len()).rev() {
        if rng.once_in(rare) {
            rows.insert(at, skipped_row(rng));
        }
    }
}

/// DD.MM.YYYY.
pub fn date_text(day: u32) -> Vec<u8> {
    let (d, m, y) = date_of(day);
    format!("{:02}.{:02}.{:04}", d, m, y).into_bytes()
}

fn dates(rng: &mut Rng, plan: &Plan) -> Vec<Row> {
    let mut first = date_text(plan.first_day);
    let mut last = date_text(plan.first_day + plan.days - 1);
    for text in [&mut first, &mut last] {
        if rng.once_in(4) {
            let length = rng.index(12);
            text.extend(rng.text(length));
        }
    }
    let length = rng.index(20);
    let name = if rng.coin() { b"Trial week".to_vec() } else { rng.text(length) };
    vec![
        Row { tag: Tag::Date(0), text: first },
        Row { tag: Tag::Date(1), text: last },
        Row { tag: Tag::Free, text: name },
    ]
}

fn bitfields(rng: &mut Rng, plan: &Plan) -> Vec<Row> {
    let mut rows = Vec::new();
    for (i, (number, words)) in plan.bitfields.iter().enumerate() {
        let mut text = format!("{:06} {}", number, bit_digits(words)).into_bytes();
        if rng.once_in(8) {
            text.extend([b' '; 3]);
        }
        rows.push(Row { tag: Tag::BitField(i), text });
    }
    rows
}

/// One name, or a list of names with patterns.
fn name(rng: &mut Rng) -> Vec<u8> {
    if rng.coin() {
        return written(&list(rng));
    }
    let length = rng.pick(&[1, 4, 9, 9, 20, 50]);
    let mut name = rng.text(length);
    let at = rng.index(length);
    name[at] = rng.byte(false);
    name
}

fn stops(rng: &mut Rng, plan: &Plan) -> Vec<Row> {
    let mut rows = Vec::new();
    for (i, number) in plan.stops.iter().enumerate() {
        let mut line = Blanks(Vec::new());
        line.put(1, format!("{:07}", number).as_bytes()).put(13, &name(rng));
        if rng.once_in(4) {
            line.put(9, &rng.text(3));
        }
        match rng.below(6) {
            0 => line.put(63, &rng.text(5)),
            // free columns, whatever they would make of the list
            1 if line.0.len() == 62 => line.put(63, b"$<"),
            1 => line.put(62, &line_end(&line.0)),
            _ => &mut line,
        };
        rows.push(Row { tag: Tag::Stop(i), text: line.0 });
    }
    rows
}

/// What stands in column 62 already, and two blanks.
fn line_end(line: &[u8]) -> [u8; 3] {
    [line.get(61).copied().unwrap_or(b' '), b' ', b' ']
}

fn interchange(rng: &mut Rng, plan: &Plan) -> Vec<Row> {
    let mut rows = Vec::new();
    for (i, (number, same, other)) in plan.interchange.iter().enumerate() {
        let mut text = match rng.below(2) {
            0 => format!("{:07} {:02} {:02}", number, same, other),
            _ => format!("{:07} {:>2} {:>2}", number, same, other),
        }
        .into_bytes();
        if rng.once_in(3) {
            text.push(b' ');
            let length = rng.index(8);
            text.extend(rng.text(length));
        }
        rows.push(Row { tag: Tag::Record(i), text });
    }
    rows
}

/// Code, class and tariff group as planned; what else must be there, and what may be.
fn categories(rng: &mut Rng, plan: &Plan) -> Vec<Row> {
    let mut rows = Vec::new();
    for (i, category) in plan.categories.iter().enumerate() {
        let class = if rng.coin() { format!("{:02}", category.class) } else { format!("{:>2}", category.class) };
        let length = rng.index(9);
        let mut line = Blanks(category.code.to_vec());
        line.put(5, class.as_bytes()).put(8, &[category.group.unwrap_or(b' ')]);
        line.put(10, &[rng.pick(b"01234567")]).put(12, &rng.text(length)).put(21, &[rng.pick(b"012")]);
        if rng.coin() {
            line.put(23, &[rng.pick(b"NBF ")]);
        }
        if rng.once_in(3) {
            let length = rng.index(30);
            line.put(25, &rng.text(length));
        }
        rows.push(Row { tag: Tag::Category(i), text: line.0 });
    }
    rows
}

fn services(rng: &mut Rng, plan: &Plan) -> Vec<Row> {
    let mut rows = Vec::new();
    for (s, service) in plan.services.iter().enumerate() {
        rows.push(Row { tag: opening_tag(service, s), text: opening_text(rng, service) });
        rows.extend(service_rows(rng, service, s));
    }
    rows
}

/// The ranges and calls of a service: ranges first, or mixed, each list in its own order.
fn service_rows(rng: &mut Rng, service: &Service, s: usize) -> Vec<Row> {
    let mut ranges: Vec<Row> =
        service.ranges.iter().enumerate().map(|(i, range)| range_row(rng, service, range, (s, i))).collect();
    if rng.once_in(4) {
        rng.shuffle(&mut ranges);
    }
    let calls: Vec<Row> =
        (0..service.calls.len()).map(|i| Row { tag: Tag::Call(s, i), text: call_text(rng, service, i) }).collect();
    if !rng.once_in(4) {
        return ranges.into_iter().chain(calls).collect();
    }
    let mut rows = Vec::new();
    let (mut ranges, mut calls) = (ranges.into_iter().peekable(), calls.into_iter().peekable());
    while ranges.peek().is_some() || calls.peek().is_some() {
        rows.extend(if rng.coin() { ranges.next() } else { calls.next() });
    }
    rows
}

/// "In FPLAN column 59 is "%" and anything may follow."
fn ended(rng: &mut Rng, mut line: Blanks) -> Vec<u8> {
    line.put(59, b"%");
    if rng.once_in(4) {
        let length = rng.index(10);
        line.0.extend(rng.text(length));
    }
    line.0
}

/// The tag of a service's opening line.
pub fn opening_tag(service: &Service, s: usize) -> Tag {
    match service.runs {
        Runs::Repeats(_) => Tag::Z(s),
        Runs::Frequency(..) => Tag::T(s),
    }
}

fn opening_text(rng: &mut Rng, service: &Service) -> Vec<u8> {
    let mut line = Blanks(Vec::new());
    line.put(4, format!("{:05}", service.number).as_bytes()).put(10, &service.administration);
    match service.runs {
        Runs::Repeats(None) => line.put(1, b"*Z"),
        Runs::Repeats(Some((repeats, offset))) => {
            line.put(1, b"*Z").put(23, format!("{:03} {:03}", repeats, offset).as_bytes())
        }
        Runs::Frequency(running_time, density) => {
            line.put(1, b"*T").put(17, format!("{:04} {:04}", running_time, density).as_bytes())
        }
    };
    ended(rng, line)
}

fn range_row(rng: &mut Rng, service: &Service, range: &Range, (s, i): (usize, usize)) -> Row {
    let from = range.from_text.clone().unwrap_or_else(|| from_text(rng, &service.calls, range.from));
    let to = range.to_text.clone().unwrap_or_else(|| to_text(rng, &service.calls, range.to));
    let (tag, line) = match range.given {
        Given::Category(category) => {
            let mut line = Blanks(b"*G".to_vec());
            line.put(4, &category).put(8, &from.0).put(16, &to.0).put(24, &from.1).put(31, &to.1);
            (Tag::G(s, i), line)
        }
        Given::Days(bitfield) => (Tag::Ve(s, i), a_line(rng, *b"VE", bitfield, &from, &to)),
        Given::Other(code, bitfield) => (Tag::Other(s, i), a_line(rng, code, bitfield, &from, &to)),
    };
    Row { tag, text: ended(rng, line) }
}

type EndText = (Vec<u8>, Vec<u8>);

fn a_line(rng: &mut Rng, code: [u8; 2], bitfield: u32, from: &EndText, to: &EndText) -> Blanks {
    let mut line = Blanks(b"*A".to_vec());
    line.put(4, &code).put(7, &from.0).put(15, &to.0).put(30, &from.1).put(37, &to.1);
    if bitfield != 0 || rng.coin() {
        line.put(23, format!("{:06}", bitfield).as_bytes());
    }
    line
}

fn time_text(rng: &mut Rng, time: Option<u32>) -> Vec<u8> {
    match time {
        None => vec![b' '; 6],
        Some(minutes) if rng.once_in(4) => format!("-{}", hours_minutes(minutes)).into_bytes(),
        Some(minutes) => format!(" {}", hours_minutes(minutes)).into_bytes(),
    }
}

fn call_text(rng: &mut Rng, service: &Service, i: usize) -> Vec<u8> {
    let call = service.calls[i];
    let mut line = Blanks(Vec::new());
    line.put(1, format!("{:07}", call.stop).as_bytes());
    line.put(30, &time_text(rng, call.arrival)).put(37, &time_text(rng, call.departure));
    if rng.coin() {
        line.put(9, &rng.text(21));
    }
    if let Some(number) = call.change.number {
        line.put(44, format!("{:05}", number).as_bytes());
    }
    if let Some(administration) = call.change.administration {
        line.put(50, &administration);
    }
    if rng.once_in(4) {
        line.put(57, b"X");
    }
    ended(rng, line)
}

/// The bytes of a file: LF, CR LF or both mixed, and perhaps none after the last line.
pub fn bytes(rng: &mut Rng, rows: &[Row]) -> Vec<u8> {
    let style = rng.below(4);
    let mut file = Vec::new();
    for row in rows {
        file.extend_from_slice(&row.text);
        if style == 0 || (style == 1 && rng.coin()) {
            file.push(b'\r');
        }
        file.push(b'\n');
    }
    let last_is_empty = rows.last().map_or(true, |row| row.text.is_empty());
    if !last_is_empty && rng.once_in(4) {
        file.pop();
    }
    file
}
