//! How often refusals 4 named each column, by the kind of line.

use std::collections::BTreeMap;
use std::fmt;

use crate::reader::fields::{kind, LineKind};
use crate::reader::lines::lines;

/// BITFELD's columns from here on are counted as one.
const ON: u32 = 111;

/// The kinds of lines, and the columns that a refusal 4 can name there, from document 01's table and document 02, No. 1 and 8: where a
/// field starts that can break, and the columns that no field names.
static KINDS: [(&str, &[(u32, u32)]); 10] = [
    ("ECKDATEN", &[(1, 1)]),
    ("BITFELD", &[(1, 1), (7, 8), (104, ON)]),
    ("BAHNHOF", &[(1, 1), (8, 8), (12, 13)]),
    ("UMSTEIGB", &[(1, 1), (8, 9), (11, 12), (14, 14)]),
    ("*Z", &[(4, 4), (9, 10), (16, 23), (26, 27), (30, 59)]),
    ("*T", &[(4, 4), (9, 10), (16, 17), (21, 22), (26, 59)]),
    ("*G", &[(4, 4), (7, 8), (15, 16), (23, 24), (30, 31), (37, 59)]),
    ("*A", &[(4, 4), (6, 7), (14, 15), (22, 23), (29, 30), (36, 37), (43, 59)]),
    ("ZUGART", &[(1, 1), (4, 5), (7, 11), (20, 24)]),
    ("schedule", &[(1, 1), (8, 8), (30, 30), (36, 37), (43, 44), (49, 50), (56, 59)]),
];

/// So many times for each million of cases a column has to come.
const LEAST: u64 = 20;

/// The columns told, by the kind of line.
#[derive(Default)]
pub struct Columns {
    counts: BTreeMap<(&'static str, u32), u64>,
}

impl Columns {
    /// Counts the column of a load's answer: number, file, line, words, column.
    pub fn count(&mut self, files: &[Vec<u8>; 6], answer: &[u32]) {
        if let [4, file, line, _, column] = answer {
            let (file, line) = (*file as usize - 1, *line as usize - 1);
            let name = match (file, kind(lines(&files[file])[line].text)) {
                (4, LineKind::Z) => "*Z",
                (4, LineKind::T) => "*T",
                (4, LineKind::G) => "*G",
                (4, LineKind::A) => "*A",
                (4, _) => "schedule",
                (5, _) => "ZUGART",
                (file, _) => KINDS[file].0,
            };
            *self.counts.entry((name, (*column).min(ON))).or_insert(0) += 1;
        }
    }

    /// Columns that came too seldom in so many cases, and columns that cannot be told.
    pub fn strange(&self, cases: u64) -> Vec<String> {
        let least = LEAST * cases / 1_000_000;
        let seldom = all().filter(|place| self.times(*place) < least).map(|place| (place, "came too seldom"));
        let never = self.counts.keys().copied().filter(|place| all().all(|other| other != *place));
        let strange = seldom.chain(never.map(|place| (place, "cannot be told")));
        strange.map(|((name, column), what)| format!("column {} of {} {}", column, name, what)).collect()
    }

    fn times(&self, place: (&'static str, u32)) -> u64 {
        self.counts.get(&place).copied().unwrap_or(0)
    }
}

/// Every kind of line with every column that can be told there.
fn all() -> impl Iterator<Item = (&'static str, u32)> {
    let of_kind = |(name, spans): &'static (&'static str, &'static [(u32, u32)])| {
        spans.iter().flat_map(move |(a, b)| (*a..=*b).map(move |column| (*name, column)))
    };
    KINDS.iter().flat_map(of_kind)
}

impl fmt::Display for Columns {
    fn fmt(&self, f: &mut fmt::Formatter<'_>) -> fmt::Result {
        if self.counts.is_empty() {
            return Ok(());
        }
        writeln!(f, "columns of refusals 4, each with its times ({} of BITFELD is {} and on):", ON, ON)?;
        for (name, _) in &KINDS {
            let told =
                all().filter(|place| place.0 == *name).map(|place| format!(" {}:{}", place.1, self.times(place)));
            writeln!(f, "  {:<9}{}", name, told.collect::<String>())?;
        }
        let least = all().map(|place| self.times(place)).min().unwrap_or(0);
        writeln!(f, "  the rarest of {} came {} times", all().count(), least)
    }
}
