//! 5.3.3, 5.3.16 and 5.3.17: services opened by *T (document 02, No. 8).

use super::services::{fplan_1554, paper_1554, WORDS_1554};
use super::{Checked, Paper};
use crate::boundary::Boundary;
use crate::columns::{a, call, category, g, line, t};
use crate::layout::{
    CALL_WORDS, CATEGORY_WORDS, CLASS_WORDS, DAYS_WORDS, FIRST_SERVICE_AT, HEADER_WORDS, INTERCHANGE_WORDS, KIND_AT,
    KIND_T, MOST_ROW_WORDS, OFFSET_AT, REPEATS_AT, ROW_ARRIVAL_AT, ROW_DEPARTURE_AT, ROW_WORDS, SERVICE_WORDS,
    STOP_WORDS,
};

/// A day of 5.4.1's period.
const MONDAY: [u32; 3] = [30, 9, 1996];

/// For each of these runs of the first service the answer's number, and how much later than in the first run it leaves the first
/// call and reaches the last.
fn late(boundary: &dyn Boundary, table: &[u32], runs: &[u32]) -> Vec<u32> {
    let times = |run: u32| {
        let mut rows = vec![0; MOST_ROW_WORDS];
        let [number, listed, _] = boundary.walk(table, 0, run, MONDAY, &mut rows);
        let last = ROW_WORDS * (listed as usize).saturating_sub(1);
        [number, rows[ROW_DEPARTURE_AT], rows[last + ROW_ARRIVAL_AT]]
    };
    let [_, leaves, arrives] = times(0);
    let each = |run: &u32| match times(*run) {
        [0, departure, arrival] => vec![0, departure.wrapping_sub(leaves), arrival.wrapping_sub(arrives)],
        [number, ..] => vec![number],
    };
    runs.iter().flat_map(each).collect()
}

/// How many of runs 0 to 999 there are.
fn runs(boundary: &dyn Boundary, table: &[u32]) -> u32 {
    let walked = |run: &u32| boundary.walk(table, 0, *run, MONDAY, &mut vec![0; MOST_ROW_WORDS])[0] == 0;
    (0..1_000).filter(walked).count() as u32
}

/// 5.3.3: 0240 minutes and 0450 seconds, over the route of 5.3.1's service of the same number. "If the beginning of the search is
/// with 8:00 o'clock .., connections till 12:00 o'clock (4 hours, according to 240 minutes)"; "7.5 minutes, according to 450 seconds".
pub fn service_1554(boundary: &dyn Boundary) -> Vec<Checked> {
    let opened = |opening: String| {
        let mut lines = fplan_1554();
        lines[0] = opening;
        paper_1554().with(5, &lines)
    };
    let printed = line(&[(1, "*T 01554 80_____ 0240 0450"), (59, "%")]);
    let mended = opened(t("01554", "80____", "0240", "0450"));
    let (accepted, table) = mended.accepted(boundary, "5.3.3 the *T service 1554", WORDS_1554);
    let head = &table[table[FIRST_SERVICE_AT] as usize..];
    let expected = [0, 0, 0, 0, 8, 8, 0, 15, 15, 0, 23, 23, 0, 30, 30, 0, 233, 233, 0, 240, 240, 25, 25];
    vec![
        opened(printed).refused(boundary, "5.3.3 as printed, seven bytes of administration", [4, 5, 1, 16]),
        accepted,
        Checked::new(
            "5.3.3 running time, density and kind",
            &[240, 450, 1],
            &[head[REPEATS_AT], head[OFFSET_AT], head[KIND_AT]],
        ),
        Checked::new("5.3.3 runs 0 to 32", &[33], &[runs(boundary, &table)]),
        Checked::new(
            "5.3.3 runs 0 to 4 are 0, 8, 15, 23 and 30 minutes late, run 31 is 233, run 32 is 240; no run 33",
            &expected,
            &late(boundary, &table, &[0, 1, 2, 3, 4, 31, 32, 33, u32::MAX]),
        ),
    ]
}

/// 5.3.16: *TT lines, and the region lines of a *T service, are not taken.
pub fn regions(boundary: &dyn Boundary) -> Vec<Checked> {
    let opening = t("12345", "987654", "0240", "0450");
    let with = |line: &str| Paper::new().with(5, &[opening.as_str(), line]);
    vec![
        with("*TT 123456789").refused(boundary, "5.3.16 a *TT line", [11, 5, 2, 0]),
        with("+123456 Region A").refused(boundary, "5.3.16 a region of a *T service", [11, 5, 2, 0]),
    ]
}

/// 5.3.17's stops of service 1.
const ON_CALL: [&str; 12] = [
    "0000288", "0000217", "0000209", "0000364", "0000374", "0000230", "0000617", "0000360", "0000306", "0000199",
    "0000540", "0000332",
];

/// The lines behind 5.3.17's *T line; the first one only is not taken.
fn on_call_lines() -> Vec<String> {
    let mut lines = vec![
        line(&[(1, "*EI 0000288 0000332"), (59, "%")]),
        g("Ruf", ("", ""), ("", "")),
        a("VE", ("", ""), ("", ""), ""),
        call(ON_CALL[0], "", " 00800"),
    ];
    lines.extend(ON_CALL[1..].iter().map(|stop| call(stop, " 00800", " 00800")));
    lines
}

/// 5.3.17: "The negative clock density" answers 4, at its column; mended, without *EI, it runs for twelve hours.
pub fn on_call(boundary: &dyn Boundary) -> Vec<Checked> {
    let names: Vec<String> = ON_CALL.iter().map(|stop| format!("{}     Stop {}", stop, stop)).collect();
    let opened = |opening: String, from: usize| {
        let mut lines = vec![opening];
        lines.extend_from_slice(&on_call_lines()[from..]);
        Paper::new().with(3, &names).with(5, &lines).with(6, &[category("Ruf", 9, "")])
    };
    let signed = |column: usize, density: &str| line(&[(1, "*T 00001 VGS___ 0720"), (column, density), (59, "%")]);
    let words = HEADER_WORDS
        + 12 * STOP_WORDS
        + INTERCHANGE_WORDS
        + CLASS_WORDS
        + SERVICE_WORDS
        + 12 * CALL_WORDS
        + CATEGORY_WORDS
        + DAYS_WORDS;
    let mended = t("00001", "VGS___", "0720", "0900");
    let (accepted, table) = opened(mended.clone(), 1).accepted(boundary, "5.3.17 density 0900, without *EI", words);
    let kind = table[table[FIRST_SERVICE_AT] as usize + KIND_AT];
    vec![
        opened(signed(22, "-0900"), 0).refused(boundary, "5.3.17 as printed, density -0900", [4, 5, 1, 22]),
        opened(signed(22, "-900"), 0).refused(boundary, "5.3.17 density -900", [4, 5, 1, 22]),
        opened(signed(21, "-0900"), 0).refused(boundary, "5.3.17 the sign before the field", [4, 5, 1, 21]),
        opened(mended, 0).refused(boundary, "5.3.17 density 0900, *EI", [11, 5, 2, 0]),
        accepted,
        Checked::new("5.3.17 its kind, and runs 0 to 48", &[KIND_T, 49], &[kind, runs(boundary, &table)]),
        Checked::new(
            "5.3.17 the last run is 720 minutes late",
            &[0, 15, 15, 0, 720, 720, 25],
            &late(boundary, &table, &[1, 48, 49]),
        ),
    ]
}
