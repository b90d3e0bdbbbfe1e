//! What is wrong with a delivery, and where.

/// The numbers of documents 01's and 02's refusals.
pub mod number {
    pub const FILE_LONG: u32 = 1;
    pub const LINE_MISSING: u32 = 2;
    pub const FOURTH_LINE: u32 = 3;
    pub const FORM: u32 = 4;
    pub const DATE: u32 = 5;
    pub const REPEATED: u32 = 6;
    pub const RESERVED: u32 = 7;
    pub const FRAME: u32 = 8;
    pub const STOP_UNKNOWN: u32 = 9;
    pub const FIELD_UNKNOWN: u32 = 10;
    pub const OTHER_KIND: u32 = 11;
    pub const NOT_OPENED: u32 = 12;
    pub const TOO_MANY: u32 = 13;
    pub const FEW_CALLS: u32 = 14;
    pub const TIMES: u32 = 15;
    pub const RANGE: u32 = 16;
    pub const CATEGORY_COVER: u32 = 17;
    pub const DAYS_COVER: u32 = 18;
    pub const STRETCHES: u32 = 19;
    pub const TABLE_SHORT: u32 = 20;
    pub const TARIFF_GROUP: u32 = 37;
    pub const CATEGORY_UNKNOWN: u32 = 38;
    pub const NAMES: u32 = 39;
}

/// A refusal of a delivery.
#[derive(Clone, Copy, Debug, PartialEq, Eq)]
pub struct Refusal {
    /// 1 to 20, or 37 to 39.
    pub number: u32,
    /// 1 ECKDATEN, 2 BITFELD, 3 BAHNHOF, 4 UMSTEIGB, 5 FPLAN, 6 ZUGART; 0 for 20.
    pub file: u32,
    /// The line, counted from 1; 0 for 1 and 20.
    pub line: u32,
    /// For 4 the column where the leftmost field or unnamed column that breaks the form starts, else 0.
    pub column: u32,
    /// The words needed for 20, else 0.
    pub needed: u32,
}

/// A refusal before its file is known.
#[derive(Clone, Copy, Debug, PartialEq, Eq)]
pub struct Offence {
    pub number: u32,
    pub line: u32,
    pub column: u32,
}

impl Offence {
    pub fn at(line: u32, number: u32) -> Offence {
        Offence { number, line, column: 0 }
    }

    pub fn in_file(self, file: u32) -> Refusal {
        Refusal { number: self.number, file, line: self.line, column: self.column, needed: 0 }
    }
}
