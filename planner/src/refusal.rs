//! Refusals by their numbers, each with a sentence for people. `docs/REFUSALS.md` says how to mend them.

use std::error::Error;
use std::fmt;
use std::mem::discriminant;

/// A file of a delivery.
#[derive(Clone, Copy, Debug, PartialEq, Eq)]
pub enum File {
    /// File 1: the first and last day of the period, and its name.
    Eckdaten = 1,
    /// File 2: bit fields, which say the days of the period on which something runs.
    Bitfeld = 2,
    /// File 3: stops and their names.
    Bahnhof = 3,
    /// File 4: interchange times, first those that hold for every stop without its own.
    Umsteigb = 4,
    /// File 5: services with their calls, categories and operating days.
    Fplan = 5,
    /// File 6: the categories that services may have, each with its class. It is checked before FPLAN.
    Zugart = 6,
}

const FILES: [(File, &str); 6] = [
    (File::Eckdaten, "ECKDATEN"),
    (File::Bitfeld, "BITFELD"),
    (File::Bahnhof, "BAHNHOF"),
    (File::Umsteigb, "UMSTEIGB"),
    (File::Fplan, "FPLAN"),
    (File::Zugart, "ZUGART"),
];

/// The text beside a value; every value is listed.
fn text_of<T: Copy + PartialEq>(texts: &[(T, &'static str)], value: T) -> &'static str {
    texts.iter().find(|(listed, _)| *listed == value).map_or("", |(_, text)| text)
}

impl File {
    /// All, by their numbers.
    pub const ALL: [File; 6] =
        [File::Eckdaten, File::Bitfeld, File::Bahnhof, File::Umsteigb, File::Fplan, File::Zugart];

    /// The file's number, 1 to 6.
    pub fn number(self) -> u32 {
        self as u32
    }

    /// The file of a number; `None` unless 1 to 6.
    pub fn from_number(number: u32) -> Option<File> {
        FILES.iter().map(|(file, _)| *file).find(|file| file.number() == number)
    }

    /// The file's name in a delivery.
    pub fn name(self) -> &'static str {
        text_of(&FILES, self)
    }
}

impl fmt::Display for File {
    fn fmt(&self, f: &mut fmt::Formatter<'_>) -> fmt::Result {
        f.write_str(self.name())
    }
}

/// Why a delivery is refused.
#[derive(Clone, Copy, Debug, PartialEq, Eq)]
#[non_exhaustive]
pub enum Offence {
    /// 1: a file has more than 16,777,216 bytes.
    FileTooLong = 1,
    /// 2: ECKDATEN has fewer than three lines, or UMSTEIGB no record. The line is the one after the last.
    LineMissing = 2,
    /// 3: ECKDATEN has more than three lines.
    FourthLine = 3,
    /// 4: a field of the line, or a column that no field has, breaks the form.
    Form = 4,
    /// 5: no such date from 01.01.1900 to 31.12.2199, an end before the start, or more than 380 days.
    NoSuchDate = 5,
    /// 6: an earlier line of the same file, BITFELD, BAHNHOF, UMSTEIGB or ZUGART, has this number or code.
    NumberSeenEarlier = 6,
    /// 7: bit field 000000, a stop 9999999 or ending 00000, or a first record of UMSTEIGB that is not 9999999.
    NumberNotAllowed = 7,
    /// 8: a bit field has wrong bits around the days of the period.
    FrameWrong = 8,
    /// 9: a stop of UMSTEIGB, or of a call in FPLAN, is not in BAHNHOF.
    StopUnknown = 9,
    /// 10: a bit field of FPLAN is neither 000000 nor in BITFELD.
    BitFieldUnknown = 10,
    /// 11: the line is of a kind that is not taken.
    OtherLineKind = 11,
    /// 12: the line stands before the first *Z or *T line, so that it belongs to no service.
    NoServiceYet = 12,
    /// 13: the service has over 200 calls, 50 *G, 50 *A VE or 100 other *A lines. The line is the first over.
    TooManyLines = 13,
    /// 14: the service has fewer than two calls. The line is its *Z or *T line, as for 17 to 19.
    UnderTwoCalls = 14,
    /// 15: a call has no time where it needs one, or one that is earlier than the one stated before.
    Times = 15,
    /// 16: an end of the range is not found on the route, or its two ends are in the wrong order.
    RangeNotOnRoute = 16,
    /// 17: a leg is not covered by exactly one *G line.
    Categories = 17,
    /// 18: a leg is not covered by exactly one *A VE line.
    OperatingDays = 18,
    /// 19: on some day the legs that are operated form two or more separate stretches.
    TwoStretches = 19,
    /// 20: the delivery is right, but its table needs more words than were lent.
    TableTooShort = 20,
    /// 37: a category of ZUGART has a tariff group where the first has none, or none where the first has one.
    TariffGroup = 37,
    /// 38: the category of a *G line is not in ZUGART.
    CategoryUnknown = 38,
    /// 39: the name field of a stop is no list of names with their patterns.
    NameList = 39,
    /// 51: the load needs more helper words than were lent. [`Timetable::load`](crate::Timetable::load) lends enough.
    HelperTooShort = 51,
}

const OFFENCES: [(Offence, &str); 24] = [
    (Offence::FileTooLong, "the file has more than 16,777,216 bytes"),
    (Offence::LineMissing, "a line is missing: ECKDATEN needs three lines, UMSTEIGB at least the record of 9999999"),
    (Offence::FourthLine, "ECKDATEN has more than three lines"),
    (Offence::Form, "the line does not have its form"),
    (Offence::NoSuchDate, "there is no such date, or the period ends before it starts or has more than 380 days"),
    (Offence::NumberSeenEarlier, "an earlier line of the same file has this number, or this code"),
    (
        Offence::NumberNotAllowed,
        "this number cannot stand here: 000000, a stop 9999999 or ending 00000, or a first record that is not 9999999",
    ),
    (Offence::FrameWrong, "the frame is wrong: two bits 1 before and two after the days of the period, then 0"),
    (Offence::StopUnknown, "the stop is not in BAHNHOF"),
    (Offence::BitFieldUnknown, "the bit field is not in BITFELD"),
    (Offence::OtherLineKind, "a line of this kind is not taken"),
    (Offence::NoServiceYet, "no *Z or *T line has opened a service yet"),
    (Offence::TooManyLines, "the service has over 200 calls, 50 *G, 50 *A VE or 100 other *A lines"),
    (Offence::UnderTwoCalls, "the service has fewer than two calls"),
    (Offence::Times, "a time of this call is missing, or earlier than the time before it"),
    (Offence::RangeNotOnRoute, "an end of this range is not on the route, or its ends stand in the wrong order"),
    (Offence::Categories, "a leg of the service does not have exactly one *G line"),
    (Offence::OperatingDays, "a leg of the service does not have exactly one *A VE line"),
    (Offence::TwoStretches, "on some day the service runs on two or more separate stretches"),
    (Offence::TableTooShort, "the delivery is right, but the table lent is too short for it"),
    (Offence::TariffGroup, "a tariff group is missing or alone: all categories have one, or none"),
    (Offence::CategoryUnknown, "the category is not in ZUGART"),
    (Offence::NameList, "the name field is no list of names with their patterns, such as Genf$<d>$Geneva$<e>"),
    (Offence::HelperTooShort, "the helper words lent are too few for the lines of BITFELD, BAHNHOF and UMSTEIGB"),
];

impl Offence {
    /// Its number, 1 to 20, 37 to 39 or 51.
    pub fn number(self) -> u32 {
        self as u32
    }

    /// The offence of a number; `None` unless 1 to 20, 37 to 39 or 51.
    pub fn from_number(number: u32) -> Option<Offence> {
        OFFENCES.iter().map(|(offence, _)| *offence).find(|offence| offence.number() == number)
    }
}

impl fmt::Display for Offence {
    fn fmt(&self, f: &mut fmt::Formatter<'_>) -> fmt::Result {
        f.write_str(text_of(&OFFENCES, *self))
    }
}

/// A refused delivery. Its text begins as the program's line does: `refused N file F line L column C`.
#[derive(Clone, Copy, Debug, PartialEq, Eq)]
#[non_exhaustive]
pub struct LoadRefusal {
    /// What is wrong: the first offence, in document 01's order.
    pub offence: Offence,
    /// The file to mend; `None` for [`Offence::TableTooShort`] and [`Offence::HelperTooShort`] only.
    pub file: Option<File>,
    /// The line to look at, counted from 1; 0 for [`Offence::FileTooLong`] and where there is no file.
    pub line: u32,
    /// The column, counted from 1, where the leftmost field or unnamed column that breaks the form starts; 0 unless
    /// [`Offence::Form`].
    pub column: usize,
    /// The words that the table needs for [`Offence::TableTooShort`], the helper words that the load needs for
    /// [`Offence::HelperTooShort`], else 0.
    pub needed: u32,
}

impl fmt::Display for LoadRefusal {
    fn fmt(&self, f: &mut fmt::Formatter<'_>) -> fmt::Result {
        let file = self.file.map_or(0, File::number);
        write!(f, "refused {} file {} line {} column {}: ", self.offence.number(), file, self.line, self.column)?;
        match self.file {
            Some(file) => write!(f, "{}: {}", file, self.offence),
            None => write!(f, "{}: {} words are needed", self.offence, self.needed),
        }
    }
}

impl Error for LoadRefusal {}

/// Why a question, or arithmetic on operating days, is refused. 32 is retired (document 02, No. 10). 31 to 36 cannot occur on the
/// unaltered table of an accepted delivery, nor 38 for categories of its own runs, nor 39 and 41 with its own BAHNHOF, nor 44, nor 43 with its own index: that is proved.
#[derive(Clone, Copy, Debug, PartialEq, Eq)]
#[non_exhaustive]
pub enum Refusal {
    /// 21: the words are not a table.
    NotATable,
    /// 22: there is no such date from 01.01.1900 to 31.12.2199.
    NoSuchDate,
    /// 23: the date is outside the period of the table.
    OutsidePeriod,
    /// 24: the service index is not below the number of services.
    NoSuchService,
    /// 25: the service has no run of this number: it is over the repeats of a *Z service, or starts after the running time of a *T
    /// service.
    NoSuchRepeat,
    /// 26: a class is over 13.
    ClassOver13,
    /// 27: the stop is not in the table.
    StopUnknown,
    /// 28: the bit field is not in the table.
    NoSuchBitField,
    /// 29: the words lent are too few: rows for the walk, or words for the index.
    RowsTooShort {
        /// The words that are needed.
        needed: usize,
    },
    /// 31: the bit field of a leg's operating days is not in the table.
    BitFieldUnknown,
    /// 33: the leg that leaves a call is not covered by exactly one *G range.
    Categories,
    /// 34: a leg is not covered by exactly one range of operating days.
    OperatingDays,
    /// 35: the legs that are operated on the date form two or more separate stretches.
    TwoStretches,
    /// 36: a call has no time where the run needs one, or one that is earlier than the one needed before.
    Times,
    /// 38: a category is not in the table.
    CategoryUnknown,
    /// 39: the stop's name field is no list of names with their patterns, or longer than the 50 columns that it can have.
    NameList,
    /// 40: the language or the type is neither 0 nor in the standard's list.
    NoSuchLanguageOrType,
    /// 41: the stop's name field is not inside the bytes of BAHNHOF that were given.
    NameOutside,
    /// 42: the words are not twelve with the frame of the period, or the period does not have 1 to 380 days.
    NotAField,
    /// 43: the words are not this table's index. Mend: make the index again, of the words that are asked.
    NotItsIndex,
    /// 44: a value of the table does not fit its columns of FPLAN, or would not be read back as it is.
    NotWritable,
    /// 45: the bytes lent are too few for the text.
    TextTooShort {
        /// The bytes that the text needs.
        needed: usize,
    },
    /// 46: a connection has 1 to 10 whole parts.
    NotWholeParts,
    /// 47: the boarding or the alighting call of a part is not among that day's rows; also where the service is not running on that day.
    NotAmongRows,
    /// 48: a part's boarding is not before its alighting, or one of them is forbidden there.
    OrderOrPermission,
    /// 49: a part boards at another stop than the part before alights at.
    OtherStop,
    /// 50: the wait before a part is shorter than the interchange time.
    WaitTooShort,
}

const REFUSALS: [(u32, Refusal, &str); 27] = [
    (21, Refusal::NotATable, "the words are not a table"),
    (22, Refusal::NoSuchDate, "there is no such date"),
    (23, Refusal::OutsidePeriod, "the date is outside the period"),
    (24, Refusal::NoSuchService, "the service index is not below the number of services"),
    (25, Refusal::NoSuchRepeat, "the service has no run of this number"),
    (26, Refusal::ClassOver13, "a class is over 13"),
    (27, Refusal::StopUnknown, "the stop is not in the table"),
    (28, Refusal::NoSuchBitField, "there is no such bit field in the table"),
    (29, Refusal::RowsTooShort { needed: 0 }, "the words lent are too few"),
    (31, Refusal::BitFieldUnknown, "the bit field of a leg is not in the table"),
    (33, Refusal::Categories, "a leg does not have exactly one category"),
    (34, Refusal::OperatingDays, "a leg does not have exactly one range of operating days"),
    (35, Refusal::TwoStretches, "on that day the service runs on two or more separate stretches"),
    (36, Refusal::Times, "a time that the run needs is missing, or earlier than the one before it"),
    (38, Refusal::CategoryUnknown, "the category is not in the table"),
    (39, Refusal::NameList, "the name field of the stop is no list of names"),
    (40, Refusal::NoSuchLanguageOrType, "there is no such language or type"),
    (41, Refusal::NameOutside, "the names of the stop are not inside the bytes of BAHNHOF given"),
    (42, Refusal::NotAField, "the words are not a bit field with the frame of the period"),
    (43, Refusal::NotItsIndex, "the words are not this table's index"),
    (
        44,
        Refusal::NotWritable,
        "a value of the table does not fit its columns of FPLAN, or would not be read back as it is",
    ),
    (45, Refusal::TextTooShort { needed: 0 }, "the bytes lent are too few for the text"),
    (46, Refusal::NotWholeParts, "a connection has 1 to 10 whole parts"),
    (47, Refusal::NotAmongRows, "the boarding or the alighting call is not among the rows of that day"),
    (48, Refusal::OrderOrPermission, "boarding is not before alighting, or one of them is forbidden there"),
    (49, Refusal::OtherStop, "the part boards at another stop than the one before it alights at"),
    (50, Refusal::WaitTooShort, "the wait is shorter than the interchange time"),
];

impl Refusal {
    /// Its number, 21 to 29, 31, 33 to 36 or 38 to 50.
    pub fn number(self) -> u32 {
        self.entry().0
    }

    /// The refusal of a number, with the words needed if it is 29, and the bytes if it is 45; `None` unless 21 to 29, 31, 33 to 36 or 38 to 50.
    pub fn from_number(number: u32, needed: usize) -> Option<Refusal> {
        match REFUSALS.iter().find(|entry| entry.0 == number)?.1 {
            Refusal::RowsTooShort { .. } => Some(Refusal::RowsTooShort { needed }),
            Refusal::TextTooShort { .. } => Some(Refusal::TextTooShort { needed }),
            other => Some(other),
        }
    }

    /// Number and text; every refusal is listed.
    fn entry(self) -> (u32, &'static str) {
        let same = REFUSALS.iter().find(|entry| discriminant(&entry.1) == discriminant(&self));
        same.map_or((0, ""), |entry| (entry.0, entry.2))
    }
}

impl fmt::Display for Refusal {
    fn fmt(&self, f: &mut fmt::Formatter<'_>) -> fmt::Result {
        let (number, text) = self.entry();
        write!(f, "refused {}: {}", number, text)?;
        match self {
            Refusal::RowsTooShort { needed } => write!(f, ": {} words are needed", needed),
            Refusal::TextTooShort { needed } => write!(f, ": {} bytes are needed", needed),
            _ => Ok(()),
        }
    }
}

impl Error for Refusal {}
