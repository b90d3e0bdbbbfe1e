//! 5.1 BAHNHOF, 5.4 ECKDATEN and BITFELD, 5.7 UMSTEIGB.

use super::{Checked, Paper};
use crate::boundary::Boundary;
use crate::columns::{bit_digits, bitfield};
use crate::generate::plan::{bitfield_of, date_of};
use crate::layout::{BIT_FIELD_WORDS, FIRST_DAY_AT, HEADER_WORDS, INTERCHANGE_WORDS, PERIOD_DAYS_AT, STOP_WORDS};

const STOPS: [&str; 4] = [
    "8800002     Bruxelles-Nord$Brüssel Nord$<d>$Brussel Noord$<n>",
    "8833001     Louvain [B]$<f>$Leuven [B]$<n>$Louvain$<f2>Louv$<f1>",
    "1234567     AAAA$<d12><f23>$BBBB$<e1><f1>",
    "7654321     CCCC$<12>$DDDD$<34>",
];

/// The second line without the "$" that may be left out: 50 characters.
const SHORTER: &str = "8833001     Louvain [B]$<f>Leuven [B]$<n>Louvain$<f2>Louv$<f1>";

/// 5.1: "a maximum of the first 50 characters", of the second line's 52, which end inside a pattern. The others, and the second made
/// shorter, with the names that the explanation gives for languages and types; 0 asks for any.
pub fn stops(boundary: &dyn Boundary) -> Vec<Checked> {
    let printed = Paper::new().with(3, &STOPS).refused(boundary, "5.1 as printed, the second stop", [39, 3, 2, 0]);
    let lines = [STOPS[0], SHORTER, STOPS[2], STOPS[3]];
    let paper = Paper::new().with(3, &lines);
    let (accepted, table) = paper.accepted(
        boundary,
        "5.1 the four stops, the second shorter",
        HEADER_WORDS + 4 * STOP_WORDS + INTERCHANGE_WORDS,
    );
    let records = [8_800_002, 12, 49, 8_833_001, 74, 50, 1_234_567, 137, 29, 7_654_321, 179, 19];
    let mut checked = vec![
        printed,
        accepted,
        Checked::new("5.1 places and lengths of the names", &records, &table[HEADER_WORDS..][..4 * STOP_WORDS]),
    ];
    for (stop, language, kind, name) in NAMES {
        let wanted = [if *language == '0' { 0 } else { *language as u32 }, *kind];
        let [number, start, length] = boundary.stop_name(&table, &paper.files[2], *stop, wanted);
        let found = paper.files[2].get(start as usize..).and_then(|rest| rest.get(..length as usize)).unwrap_or(b"");
        let numbers =
            |number: u32, name: &[u8]| [vec![number], name.iter().map(|byte| u32::from(*byte)).collect()].concat();
        let latin: Vec<u8> = name.chars().map(|character| character as u8).collect();
        let text = format!("5.1 stop {}, language {}, type {}: {}", stop, language, kind, name);
        checked.push(Checked::new(&text, &numbers(0, &latin), &numbers(number, found)));
    }
    checked
}

/// Stop, language, type, and the name that the explanation gives.
const NAMES: &[(u32, char, u32, &str)] = &[
    // "The default name of the stop 8800002 is "Bruxelles-Nord"."
    (8_800_002, 'f', 0, "Bruxelles-Nord"),
    (8_800_002, 'e', 3, "Bruxelles-Nord"),
    // ".. defined to be a german name", "a dutch one"
    (8_800_002, 'd', 0, "Brüssel Nord"),
    (8_800_002, 'n', 9, "Brussel Noord"),
    (8_800_002, '0', 0, "Brüssel Nord"),
    // "The default name of the stop 8833001 is "Louvain [B]", which is a french name. The dutch name is "Leuven [B]"."
    (8_833_001, 'e', 0, "Louvain [B]"),
    (8_833_001, 'f', 0, "Louvain [B]"),
    (8_833_001, 'n', 0, "Leuven [B]"),
    // ""Louv" has type 1 and "Louvain" has type 2": the first French name has every type, and comes first.
    (8_833_001, 'f', 1, "Louvain [B]"),
    // ""AAAA", which is a german name, carrying type 1 and 2. Moreover, this is a french name, having types 2 and 3."
    (1_234_567, 'd', 1, "AAAA"),
    (1_234_567, 'd', 2, "AAAA"),
    (1_234_567, 'f', 2, "AAAA"),
    (1_234_567, 'f', 3, "AAAA"),
    // ""BBBB", which is used in English and French and it has type 1"
    (1_234_567, 'e', 1, "BBBB"),
    (1_234_567, 'f', 1, "BBBB"),
    (1_234_567, 'e', 0, "BBBB"),
    // No pattern fits both: German has types 1 and 2 only, English type 1.
    (1_234_567, 'd', 3, "AAAA"),
    (1_234_567, 'e', 2, "AAAA"),
    // "used in any language": "CCCC", having types 1 and 2, "DDDD" 3 and 4
    (7_654_321, 'x', 1, "CCCC"),
    (7_654_321, '0', 2, "CCCC"),
    (7_654_321, 'u', 3, "DDDD"),
    (7_654_321, '0', 4, "DDDD"),
    (7_654_321, 'd', 0, "CCCC"),
    (7_654_321, 'd', 5, "CCCC"),
];

/// 5.4.1: 30.09.1996 to 01.06.1997.
pub fn period(boundary: &dyn Boundary) -> Vec<Checked> {
    let (accepted, table) = Paper::new().accepted(boundary, "5.4.1 the period", HEADER_WORDS + INTERCHANGE_WORDS);
    vec![
        accepted,
        Checked::new("5.4.1 first day 35,336, 245 days", &[35_336, 245], &table[FIRST_DAY_AT..=PERIOD_DAYS_AT]),
    ]
}

/// 27.09.1996, and the days from it to 22.05.1997.
const SATURDAY_START: u32 = 35_333;
const SATURDAY_DAYS: u32 = 238;

/// 5.4.2: "runs every Saturday", of a period whose seventh day is the first Saturday.
pub fn saturdays(boundary: &dyn Boundary) -> Vec<Checked> {
    let paper = Paper::new().with(1, &["27.09.1996", "22.05.1997", ""]);
    let printed = "C0810204081020408102040810204081020";
    let days = bit_digits(&bitfield_of(SATURDAY_DAYS, |d| d % 7 == 6));
    let begins = u32::from(days.starts_with(printed));
    let refused = |text: &str, line: String, number: u32, column: u32| {
        paper.clone().with(2, &[line]).refused(boundary, text, [number, 2, 1, column])
    };
    let mended = paper.clone().with(2, &[bitfield("000001", &days)]);
    let (accepted, table) = mended.accepted(
        boundary,
        "5.4.2 with all Saturdays and both frames",
        HEADER_WORDS + BIT_FIELD_WORDS + INTERCHANGE_WORDS,
    );
    let runs = |d: u32| {
        let (day, month, year) = date_of(SATURDAY_START + d);
        boundary.day(&table, [day, month, year], 1)
    };
    let asked: Vec<u32> = (0..SATURDAY_DAYS).flat_map(runs).collect();
    let expected: Vec<u32> = (0..SATURDAY_DAYS).flat_map(|d| [0, u32::from(d % 7 == 6)]).collect();
    vec![
        refused("5.4.2 as printed, with dots", format!("000001 {} ...", printed), 4, 8),
        refused(
            "5.4.2 the first digits, without frame",
            bitfield("000001", "02040810204081020408102040810204081"),
            8,
            0,
        ),
        refused("5.4.2 the framed digits, not closed", bitfield("000001", printed), 8, 0),
        accepted,
        Checked::new("5.4.2 the digits begin as printed", &[1], &[begins]),
        Checked::new("5.4.2 each day of the period", &expected, &asked),
    ]
}

/// 5.7: the two records. Its "IC-IC (class 2)" changes in two minutes, as document 02, No. 2, reads the column table's "0 to 2"; document 01 took
/// the prose's "0 up to 1".
pub fn interchange_times(boundary: &dyn Boundary) -> Vec<Checked> {
    let printed = Paper::new().with(4, &["9999999 2 3 STANDARD", "5800010 5 5 Basel SBB"]);
    let records = Paper::new().with(4, &["9999999  2  3 STANDARD", "5800010  5  5 Basel SBB"]);
    let listed = records.clone().with(3, &["5800010     Basel SBB", STOPS[0]]);
    let (accepted, table) = listed.accepted(
        boundary,
        "5.7 the two records, Basel listed",
        HEADER_WORDS + 2 * STOP_WORDS + 2 * INTERCHANGE_WORDS,
    );
    let minutes = |stop, class| boundary.interchange(&table, stop, [class, class])[1];
    let asked = [
        minutes(8_800_002, 1),
        minutes(8_800_002, 2),
        minutes(8_800_002, 3),
        minutes(5_800_010, 1),
        minutes(5_800_010, 3),
    ];
    vec![
        printed.refused(boundary, "5.7 with one blank between, columns 9-10 are no count", [4, 4, 1, 9]),
        records.refused(boundary, "5.7 Basel is not in BAHNHOF", [9, 4, 2, 0]),
        accepted,
        Checked::new("5.7 classes 1, 2 and 3 elsewhere, 1 and 3 in Basel", &[2, 2, 3, 5, 5], &asked),
    ]
}
