//! A file's lines and columns, as the loader reads them, and the fields that each kind of line has.

use estelunya_planner::layout::MOST_CLASS;
use estelunya_planner::File;

/// The number of ECKDATEN.
pub const ECKDATEN: u32 = File::Eckdaten as u32;
/// The number of BITFELD.
pub const BITFELD: u32 = File::Bitfeld as u32;
/// The number of BAHNHOF.
pub const BAHNHOF: u32 = File::Bahnhof as u32;
/// The number of UMSTEIGB.
pub const UMSTEIGB: u32 = File::Umsteigb as u32;
/// The number of FPLAN.
pub const FPLAN: u32 = File::Fplan as u32;
/// The number of ZUGART, which is checked before FPLAN.
pub const ZUGART: u32 = File::Zugart as u32;

/// The name of the file of a number; empty if there is none.
pub fn file_name(number: u32) -> &'static str {
    File::from_number(number).map_or("", File::name)
}

/// The files of a delivery, each as its bytes.
#[derive(Clone, Debug)]
pub struct Delivery {
    /// By number, from 1 on.
    pub files: [Vec<u8>; 6],
}

impl Delivery {
    /// The file of a number; empty if there is none.
    pub fn file(&self, number: u32) -> &[u8] {
        (number as usize).checked_sub(1).and_then(|at| self.files.get(at)).map_or(&[], |file| file)
    }
}

/// The lines of a file: cut at each LF, one CR at the end dropped; an empty last piece is no line.
pub fn lines(file: &[u8]) -> impl Iterator<Item = &[u8]> {
    let whole = file.strip_suffix(b"\n").unwrap_or(file);
    let none = file.is_empty();
    whole.split(|byte| *byte == b'\n').filter(move |_| !none).map(|line| line.strip_suffix(b"\r").unwrap_or(line))
}

/// The lines with their numbers, from 1.
pub fn numbered(file: &[u8]) -> impl Iterator<Item = (u32, &[u8])> {
    (1..).zip(lines(file))
}

/// The line of a number, from 1.
pub fn line(file: &[u8], number: u32) -> Option<&[u8]> {
    lines(file).nth((number as usize).checked_sub(1)?)
}

/// A column, from 1; past the end it reads as blank.
pub fn column(line: &[u8], at: usize) -> u8 {
    line.get(at - 1).copied().unwrap_or(b' ')
}

/// The bytes of columns, both ends inside.
pub fn columns(line: &[u8], first: usize, last: usize) -> Vec<u8> {
    (first..=last).map(|at| column(line, at)).collect()
}

/// The number that the columns hold, if they are digits only.
pub fn digits(line: &[u8], first: usize, last: usize) -> Option<u32> {
    number(&columns(line, first, last))
}

/// The number of one to nine digits.
pub fn number(bytes: &[u8]) -> Option<u32> {
    let fits = (1..=9).contains(&bytes.len()) && bytes.iter().all(u8::is_ascii_digit);
    fits.then(|| bytes.iter().fold(0, |value, digit| 10 * value + u32::from(digit - b'0')))
}

/// Whether all bytes are blank.
pub fn blank(bytes: &[u8]) -> bool {
    bytes.iter().all(|byte| *byte == b' ')
}

/// Whether the line is passed over, everywhere but in ECKDATEN.
pub fn passed_over(line: &[u8]) -> bool {
    blank(line) || line.starts_with(b"%")
}

/// The bytes without blanks around them.
pub fn trimmed(bytes: &[u8]) -> &[u8] {
    let start = bytes.iter().position(|byte| *byte != b' ').unwrap_or(bytes.len());
    let end = bytes.iter().rposition(|byte| *byte != b' ').map_or(start, |last| last + 1);
    &bytes[start..end]
}

/// "#" and digits, with blanks around.
pub fn hashed(bytes: &[u8]) -> Option<u32> {
    trimmed(bytes).strip_prefix(b"#").and_then(number)
}

/// The minutes of a time of six columns; `None` if it is blank or no time.
pub fn minutes(bytes: &[u8]) -> Option<u32> {
    let sign = matches!(bytes.first(), Some(b' ' | b'-'));
    let (hours, rest) = (number(bytes.get(1..4)?)?, number(bytes.get(4..6)?)?);
    (sign && rest <= 59).then_some(60 * hours + rest)
}

/// Whether a byte is shown as it is.
pub fn plain(byte: u8) -> bool {
    (32..127).contains(&byte)
}

/// The bytes as a row of a screen: a byte that is no plain ASCII as `?`, so that a column stays a column.
pub fn row(bytes: &[u8]) -> String {
    bytes.iter().map(|byte| if plain(*byte) { char::from(*byte) } else { '?' }).collect()
}

/// The bytes in a sentence: a byte that is no plain ASCII in hex, as in `M\xFChle`.
pub fn text(bytes: &[u8]) -> String {
    let told = |byte: &u8| if plain(*byte) { char::from(*byte).to_string() } else { format!("\\x{:02X}", byte) };
    bytes.iter().map(told).collect()
}

/// The kinds of FPLAN lines.
#[derive(Clone, Copy, Debug, PartialEq, Eq)]
pub enum Kind {
    /// *Z or *T: opens a service.
    Opening,
    /// *G.
    Category,
    /// *A.
    Attribute,
    /// A schedule line.
    Call,
    /// None of these.
    Other,
}

/// The kind of an FPLAN line.
pub fn kind(line: &[u8]) -> Kind {
    match [column(line, 1), column(line, 2), column(line, 3)] {
        [b'*', b'Z' | b'T', b' '] => Kind::Opening,
        [b'*', b'G', b' '] => Kind::Category,
        [b'*', b'A', b' '] => Kind::Attribute,
        [b'0'..=b'9', _, _] => Kind::Call,
        _ => Kind::Other,
    }
}

/// Whether an *A line gives operating days.
pub fn gives_days(line: &[u8]) -> bool {
    columns(line, 4, 5) == b"VE"
}

/// What a field must hold.
#[derive(Clone, Copy, Debug, PartialEq, Eq)]
pub enum Rule {
    /// DD.MM.YYYY.
    Date,
    /// Digits only.
    Digits,
    /// At least 1, digits only.
    Positive,
    /// Digits only, or blank.
    DigitsOrBlank,
    /// The offset beside the repeats.
    Offset,
    /// 96 hex digits.
    Hex,
    /// Blanks, then digits; at most so many.
    Count(u32),
    /// Not all blank.
    Name,
    /// The first column not blank.
    Begins,
    /// No blank.
    Filled,
    /// No blank, or all blank.
    FilledOrBlank,
    /// Blank, "#" and digits, or a stop.
    End,
    /// Blank, "#" and digits, or a time.
    Detail,
    /// Blank or a time.
    Time,
    /// One of these bytes, and how they are called.
    OneOf(&'static [u8], &'static str),
    /// X or blank.
    Mark,
    /// "%".
    Percent,
    /// Anything.
    Free,
}

/// A field: first and last column, name, rule.
pub type Field = (usize, usize, &'static str, Rule);

const DATES: &[Field] = &[(1, 10, "date", Rule::Date), (11, usize::MAX, "free", Rule::Free)];
const BIT_FIELDS: &[Field] = &[(1, 6, "number of the bit field", Rule::Digits), (8, 103, "hex digits", Rule::Hex)];
const STOPS: &[Field] = &[
    (1, 7, "number of the stop", Rule::Digits),
    (9, 11, "free", Rule::Free),
    (13, 62, "name", Rule::Name),
    (63, usize::MAX, "free", Rule::Free),
];
const RECORDS: &[Field] = &[
    (1, 7, "number of the stop", Rule::Digits),
    (9, 10, "first time", Rule::Count(60)),
    (12, 13, "second time", Rule::Count(99)),
    (15, usize::MAX, "free", Rule::Free),
];
const CATEGORIES: &[Field] = &[
    (1, 3, "code", Rule::Begins),
    (5, 6, "class", Rule::Count(MOST_CLASS)),
    (8, 8, "tariff group", Rule::OneOf(b"ABCDEFGH ", "A, B, C, D, E, F, G, H or blank")),
    (10, 10, "output", Rule::OneOf(b"01234567", "a digit 0 to 7")),
    (12, 19, "text for the output", Rule::Free),
    (21, 21, "supplement", Rule::OneOf(b"012", "0, 1 or 2")),
    (23, 23, "flag", Rule::OneOf(b"NBF ", "N, B, F or blank")),
    (25, usize::MAX, "free", Rule::Free),
];
const Z: &[Field] = &[
    (4, 8, "number of the service", Rule::Digits),
    (10, 15, "administration", Rule::Filled),
    (23, 25, "repeats", Rule::DigitsOrBlank),
    (27, 29, "offset", Rule::Offset),
    (59, 59, "\"%\"", Rule::Percent),
];
const T: &[Field] = &[
    (4, 8, "number of the service", Rule::Digits),
    (10, 15, "administration", Rule::Filled),
    (17, 20, "running time", Rule::Digits),
    (22, 25, "density", Rule::Positive),
    (59, 59, "\"%\"", Rule::Percent),
];
const G: &[Field] = &[
    (4, 6, "category", Rule::Begins),
    (8, 14, "from", Rule::End),
    (16, 22, "to", Rule::End),
    (24, 29, "detail of from", Rule::Detail),
    (31, 36, "detail of to", Rule::Detail),
    (59, 59, "\"%\"", Rule::Percent),
];
const A: &[Field] = &[
    (4, 5, "code", Rule::Begins),
    (7, 13, "from", Rule::End),
    (15, 21, "to", Rule::End),
    (23, 28, "bit field", Rule::DigitsOrBlank),
    (30, 35, "detail of from", Rule::Detail),
    (37, 42, "detail of to", Rule::Detail),
    (59, 59, "\"%\"", Rule::Percent),
];
const CALL: &[Field] = &[
    (1, 7, "stop", Rule::Digits),
    (9, 29, "free", Rule::Free),
    (30, 35, "arrival", Rule::Time),
    (37, 42, "departure", Rule::Time),
    (44, 48, "number", Rule::DigitsOrBlank),
    (50, 55, "administration", Rule::FilledOrBlank),
    (57, 57, "X", Rule::Mark),
    (59, 59, "\"%\"", Rule::Percent),
];

/// The fields of a line of a file.
pub fn fields(file: u32, line: &[u8]) -> &'static [Field] {
    match (file, kind(line)) {
        (ECKDATEN, _) => DATES,
        (BITFELD, _) => BIT_FIELDS,
        (BAHNHOF, _) => STOPS,
        (UMSTEIGB, _) => RECORDS,
        (ZUGART, _) => CATEGORIES,
        (FPLAN, Kind::Opening) if column(line, 2) == b'T' => T,
        (FPLAN, Kind::Opening) => Z,
        (FPLAN, Kind::Category) => G,
        (FPLAN, Kind::Attribute) => A,
        (FPLAN, Kind::Call) => CALL,
        _ => &[],
    }
}

/// The field that has a column.
pub fn field_at(file: u32, line: &[u8], at: usize) -> Option<&'static Field> {
    fields(file, line).iter().find(|field| field.0 <= at && at <= field.1)
}
