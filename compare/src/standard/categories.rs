//! 5.5 and 5.5.1 ZUGART (document 02, No. 1), and what 5.7 says of classes, asked between categories.

use super::{Checked, Paper};
use crate::boundary::Boundary;
use crate::columns::category as category_line;
use crate::layout::{CLASSES_AT, CLASS_AT, CLASS_CODE_AT, CLASS_WORDS, HEADER_WORDS, INTERCHANGE_WORDS, STOP_WORDS};

/// 5.5's example in its columns: train type N, class 3, tariff group A, output control 0, text N, supplement 0, a local service.
const LOCAL_TRAIN: &str = "N    3 A 0 N        0 N      Nahverkehrs zug";

/// The example as it is printed, with one blank between, and in its columns.
pub fn category(boundary: &dyn Boundary) -> Vec<Checked> {
    let printed = Paper::new().with(6, &["N 3 A 0 N 0 N Nahverkehrs zug"]);
    let words = HEADER_WORDS + INTERCHANGE_WORDS + CLASS_WORDS;
    let (accepted, table) = Paper::new().with(6, &[LOCAL_TRAIN]).accepted(boundary, "5.5 the local train", words);
    let record = &table[words - CLASS_WORDS..words];
    vec![
        printed.refused(boundary, "5.5 with one blank between, columns 5-6 are no count", [4, 6, 1, 5]),
        accepted,
        Checked::new(
            "5.5 one category: N and two blanks, class 3",
            &[1, 0x4E_2020, 3],
            &[table[CLASSES_AT], record[CLASS_CODE_AT], record[CLASS_AT]],
        ),
    ]
}

/// Lines of 5.5.1, each behind the example: column 4 is named by no field.
pub fn further_lines(boundary: &dyn Boundary) -> Vec<Checked> {
    let behind = |line: &str| {
        Paper::new().with(6, &[LOCAL_TRAIN, line]).refused(boundary, &format!("5.5.1 {}", line), [4, 6, 2, 4])
    };
    let printed = [
        "<text>",
        "<German>",
        "<English>",
        "<Irish>",
        "class00 ICE",
        "class13",
        "option00 Direct",
        "option04",
        "tariff00 A",
        "tariff07",
    ];
    printed.iter().map(|line| behind(line)).collect()
}

/// 5.7's example: "IC-IC (class 2)" in the first time, a local train (class 3) in the second; and what is refused.
pub fn between(boundary: &dyn Boundary) -> Vec<Checked> {
    let [ic, local, unknown] = [0x49_4320, 0x4E_2020, 0x69_6320];
    let lines = [category_line("IC", 2, "B"), LOCAL_TRAIN.to_string()];
    let paper = Paper::new().with(3, &["5800010     Basel SBB"]).with(6, &lines);
    let words = HEADER_WORDS + STOP_WORDS + INTERCHANGE_WORDS + 2 * CLASS_WORDS;
    let (accepted, table) = paper.accepted(boundary, "5.7 and 5.5 together", words);
    let asked = |stop, arriving, departing| boundary.interchange_between(&table, stop, [arriving, departing]);
    vec![
        accepted,
        Checked::new(
            "5.7 IC to IC, IC to N, N to IC, N to N",
            &[0, 2, 0, 3, 0, 3, 0, 3],
            &[
                asked(5_800_010, ic, ic),
                asked(5_800_010, ic, local),
                asked(5_800_010, local, ic),
                asked(5_800_010, local, local),
            ]
            .concat(),
        ),
        Checked::new(
            "5.5 \"ic \" is not listed, at either side; an unknown stop comes first",
            &[38, 0, 38, 0, 27, 0],
            &[asked(5_800_010, ic, unknown), asked(5_800_010, unknown, ic), asked(9_999_999, unknown, ic)].concat(),
        ),
    ]
}
