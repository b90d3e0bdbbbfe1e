//! 5.3.1 service 1554 and 5.3.14 service 114. (5.3.3 opens service 1554 by *T: `frequency`.)

use super::{Checked, Paper};
use crate::boundary::Boundary;
use crate::columns::{a, bit_digits, bitfield, call, category, g, z};
use crate::generate::plan::bitfield_of;
use crate::layout::{
    BIT_FIELD_WORDS, CALL_WORDS, CATEGORY_WORDS, CLASS_WORDS, DAYS_WORDS, EXTRA_FROM_AT, EXTRA_TO_AT, EXTRA_WORDS,
    HEADER_WORDS, INTERCHANGE_WORDS, ROW_WORDS, SERVICE_WORDS, STOP_WORDS,
};

/// The days of 5.4.1's period.
const DAYS: u32 = 245;

fn hex(runs: impl FnMut(u32) -> bool) -> String {
    bit_digits(&bitfield_of(DAYS, runs))
}

/// 5.3.1, its times with five digits.
pub fn fplan_1554() -> Vec<String> {
    let (d, e) = ("8010085", "8010097");
    vec![
        z("01554", "80____", "", ""),
        g("ICE", (d, ""), (e, "")),
        a("VE", (d, ""), (e, ""), "046149"),
        a("BR", ("     #2", ""), (e, ""), ""),
        a("BW", (d, ""), (e, " 01857"), ""),
        a("L ", (e, "    #0"), (e, "    #1"), ""),
        a("LS", ("     #6", "    #1"), (e, " 02200"), ""),
        call(d, "", " 01611"),
        call("8010205", " 01718", " 01722"),
        call("8010366", " 01814", " 01815"),
        call("8010101", " 01828", " 01830"),
        call(e, " 01857", " 01858"),
        call("8000115", " 01943", " 01945"),
        call("8000105", " 02036", " 02040"),
        call("8000152", " 02050", " 02100"),
        call(e, " 02200", ""),
    ]
}

/// The words of service 1554's table.
pub const WORDS_1554: usize = HEADER_WORDS
    + BIT_FIELD_WORDS
    + 8 * STOP_WORDS
    + INTERCHANGE_WORDS
    + CLASS_WORDS
    + SERVICE_WORDS
    + 9 * CALL_WORDS
    + CATEGORY_WORDS
    + DAYS_WORDS
    + 4 * EXTRA_WORDS;

/// The stops of service 1554, its bit field, daily, and its category.
pub(super) fn paper_1554() -> Paper {
    let stops = ["8010085", "8010205", "8010366", "8010101", "8010097", "8000115", "8000105", "8000152"];
    let names: Vec<String> = stops.iter().map(|stop| format!("{}     Stop {}", stop, stop)).collect();
    let categories = [category("ICE", 0, "")];
    Paper::new().with(2, &[bitfield("046149", &hex(|_| true))]).with(3, &names).with(6, &categories)
}

/// 5.3.1: "%" in column 55 beside four-digit times is not taken; else the ranges end where the standard says.
pub fn service_1554(boundary: &dyn Boundary) -> Vec<Checked> {
    let paper = paper_1554();
    let old: Vec<String> = fplan_1554().iter().map(|line| line.replace("    %", "%")).collect();
    let words = WORDS_1554;
    let (accepted, table) = paper.clone().with(5, &fplan_1554()).accepted(boundary, "5.3.1 service 1554", words);
    let ends: Vec<u32> = table[words - 4 * EXTRA_WORDS..words]
        .chunks(EXTRA_WORDS)
        .flat_map(|other| [other[EXTRA_FROM_AT], other[EXTRA_TO_AT]])
        .collect();
    vec![
        paper.with(5, &old).refused(boundary, "5.3.1 with \"%\" in column 55", [4, 5, 1, 55]),
        accepted,
        Checked::new("5.3.1 where BR, BW, L and LS apply", &[2, 8, 0, 4, 4, 8, 6, 8], &ends),
    ]
}

/// 5.3.14, lines 1 to 24 as printed.
const FPLAN_114: [&str; 24] = [
    "*Z 00114 BVG_1B       011 020                             % 00114 BVG_1B",
    "*G BUS 0053301 0053301                                    % 00114 BVG_1B",
    "*A VE 0053301 0053352 000000                              % 00114 BVG_1B",
    "*A VE 0053252 0053301 000001                              % 00114 BVG_1B",
    "*L 00001000                                               % 00114 BVG_1B",
    "*R                                                        % 00114 BVG_1B",
    "0053301 S Wannsee DB                 02014                % 00114 BVG_1B",
    "0053291 Wannseebrücke         02015  02015                % 00114 BVG_1B",
    "0053202 Am Kl. Wannsee/Am Gr  02016  02016                % 00114 BVG_1B",
    "0053251 Seglerweg             02017  02017                % 00114 BVG_1B",
    "0053252 Koblanckstr.          02017  02017                % 00114 BVG_1B",
    "0053253 Colomierstr.          02018  02018                % 00114 BVG_1B",
    "0053254 Jugenderholungsheim   02018  02018                % 00114 BVG_1B",
    "0053255 Haus der Wannsee-Ko   02019  02019                % 00114 BVG_1B",
    "0053201 Wirtschaftshof        02020  02020                % 00114 BVG_1B",
    "0053255 Haus der Wannsee-Ko   02021  02021                % 00114 BVG_1B",
    "0053292 Krankenhaus Heckesho  02022  02022                % 00114 BVG_1B",
    "0053256 Zum Heckeshorn        02022  02022                % 00114 BVG_1B",
    "0053250 Straße zum Löwen      02023  02023                % 00114 BVG_1B",
    "0053251 Seglerweg             02023  02023                % 00114 BVG_1B",
    "0053260 Endestr.              02024  02024                % 00114 BVG_1B",
    "0053202 Am Kl. Wannsee/Am Gr  02025  02025                % 00114 BVG_1B",
    "0053291 Wannseebrücke         02026 -02026                % 00114 BVG_1B",
    "0053301 S Wannsee DB          02525                       % 00114 BVG_1B",
];

/// Line 25.
const NEXT_SERVICE: &str = "*Z ...";

/// The lines of *L and *R.
const NOT_TAKEN: [usize; 2] = [4, 5];

/// "0053352" is not on the route; the explanation of line 3 says Koblanckstrasse, which is 0053252.
fn mended(line: &str) -> String {
    line.replace("0053352", "0053252")
}

/// Lines 1 to 24 but these.
fn without(lines: &[usize]) -> Vec<String> {
    (0..24).filter(|at| !lines.contains(at)).map(|at| FPLAN_114[at].to_string()).collect()
}

/// The stops of service 114 with their names, its category, and bit field 000001 as "Mo - Sa": 30.09.1996 was a Monday.
fn paper_114() -> Paper {
    let mut stops: Vec<String> = Vec::new();
    for line in &FPLAN_114[6..] {
        let (number, name) = (&line[..7], line.chars().skip(8).take(21).collect::<String>());
        if stops.iter().all(|stop| !stop.starts_with(number)) {
            stops.push(format!("{}     {}", number, name));
        }
    }
    let categories = [category("BUS", 6, "")];
    Paper::new().with(2, &[bitfield("000001", &hex(|d| d % 7 != 6))]).with(3, &stops).with(6, &categories)
}

pub fn service_114_refused(boundary: &dyn Boundary) -> Vec<Checked> {
    let paper = paper_114();
    let taken = without(&NOT_TAKEN);
    let mut wide = paper.clone();
    wide.files[4] = taken.join("\n").into_bytes();
    let mut next: Vec<String> = taken.iter().map(|line| mended(line)).collect();
    next.push(NEXT_SERVICE.to_string());
    let refused =
        |text: &str, lines: &[String], refusal: [u32; 4]| paper.clone().with(5, lines).refused(boundary, text, refusal);
    vec![
        refused("5.3.14 as printed, *L", &without(&[]), [11, 5, 5, 0]),
        refused("5.3.14 without *L, *R", &without(&NOT_TAKEN[..1]), [11, 5, 5, 0]),
        refused("5.3.14 without *L and *R, 0053352 is not on the route", &taken, [16, 5, 3, 0]),
        refused("5.3.14 mended, line 25 as printed", &next, [4, 5, 23, 4]),
        wide.refused(boundary, "5.3.14 in UTF-8, Wannseebrücke is a column wider", [4, 5, 6, 30]),
    ]
}

/// Stop, arrival and departure of each printed call.
const CALLS_114: [(u32, u32, u32); 18] = [
    (53_301, 0, 2014),
    (53_291, 2015, 2015),
    (53_202, 2016, 2016),
    (53_251, 2017, 2017),
    (53_252, 2017, 2017),
    (53_253, 2018, 2018),
    (53_254, 2018, 2018),
    (53_255, 2019, 2019),
    (53_201, 2020, 2020),
    (53_255, 2021, 2021),
    (53_292, 2022, 2022),
    (53_256, 2022, 2022),
    (53_250, 2023, 2023),
    (53_251, 2023, 2023),
    (53_260, 2024, 2024),
    (53_202, 2025, 2025),
    (53_291, 2026, 2026),
    (53_301, 2525, 0),
];

/// The rows of the first so many printed calls, so many minutes late.
fn rows_114(calls: usize, late: u32) -> Vec<u32> {
    let minutes = |printed: u32| printed / 100 * 60 + printed % 100 + late;
    let bus = 0x42_5553;
    let mut rows = Vec::new();
    for (i, (stop, arrival, departure)) in CALLS_114[..calls].iter().enumerate() {
        let (first, last) = (i == 0, i + 1 == calls);
        let arrival = if first { [0, 0] } else { [minutes(*arrival), 1] };
        let departure = if last { [0, 0, 0] } else { [minutes(*departure), 2, bus] };
        // Line 23: "the boarding is not allowed here".
        let no_boarding = if i == 16 { 8 } else { 0 };
        rows.extend([*stop, arrival[0], departure[0], arrival[1] + departure[1] + no_boarding]);
        // No call states a number or an administration: those of the *Z line, 114 and BVG_1B.
        rows.extend([114, 0x42_5647, 0x5F_3142, departure[2], 2, 3]);
    }
    rows
}

/// 5.3.14 mended: Monday to the end, Sunday to Koblanckstrasse, and the eleven runs that follow.
pub fn service_114_mended(boundary: &dyn Boundary) -> Vec<Checked> {
    let lines: Vec<String> = without(&NOT_TAKEN).iter().map(|line| mended(line)).collect();
    let words = HEADER_WORDS
        + BIT_FIELD_WORDS
        + 13 * STOP_WORDS
        + INTERCHANGE_WORDS
        + CLASS_WORDS
        + SERVICE_WORDS
        + 18 * CALL_WORDS
        + CATEGORY_WORDS
        + 2 * DAYS_WORDS;
    let (accepted, table) = paper_114().with(5, &lines).accepted(boundary, "5.3.14 mended", words);
    let walked = |repeat, date, calls: usize| {
        let mut rows = vec![0; ROW_WORDS * calls];
        let mut answer = boundary.walk(&table, 0, repeat, date, &mut rows).to_vec();
        answer.extend(rows);
        answer
    };
    let listed = |calls: usize, late| [vec![0, calls as u32, 0], rows_114(calls, late)].concat();
    let (monday, sunday) = ([30, 9, 1996], [6, 10, 1996]);
    vec![
        accepted,
        Checked::new("5.3.14 Monday, all 18 calls, to 02525", &listed(18, 0), &walked(0, monday, 18)),
        Checked::new("5.3.14 Sunday, to Koblanckstr. only", &listed(5, 0), &walked(0, sunday, 5)),
        Checked::new("5.3.14 the last of 011 repeats, 220 minutes late", &listed(18, 220), &walked(11, monday, 18)),
        Checked::new("5.3.14 no repeat 12", &[25, 0, 0], &walked(12, monday, 0)),
    ]
}
