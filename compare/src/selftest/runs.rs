//! Document 02, No. 8: services opened by *T; and the planner's way to their runs beside the reader's.

use super::{a, bitfield, call, category, file, g, t, text, z};
use crate::columns::line;
use crate::layout::{
    CALL_NUMBER_AT, CALL_WORDS, CATEGORY_WORDS, DAYS_WORDS, FIRST_SERVICE_AT, KIND_AT, KIND_T, KIND_Z, OFFSET_AT,
    OPENING_LINE_AT, REPEATS_AT, ROW_ARRIVAL_AT, ROW_DEPARTURE_AT, ROW_WORDS, SERVICE_WORDS,
};
use crate::reader::forms::form_t;
use crate::reader::runs::Runs;
use crate::reader::{is_table, load, walk, Loaded, Walked};

/// The planner's runs, which need no archive.
#[path = "../../../planner/src/kind.rs"]
#[allow(dead_code, rustdoc::broken_intra_doc_links)]
mod planner_kind;

const ALL: (&str, &str) = ("", "");

/// A week, two stops, bit field 000001, and FPLAN as given.
fn loaded(fplan: &[String]) -> (Loaded, Vec<u32>) {
    let files = [
        text(&["01.12.2025", "07.12.2025", "Week"]),
        file(&[bitfield("000001", "FE6")]),
        text(&["1000011     Alpha", "1000022     Beta"]),
        text(&["9999999  2  3"]),
        file(fplan),
        file(&[category("BAT", 4, "")]),
    ];
    let [a, b, c, d, e, f] = &files;
    let (mut table, mut helper) = (vec![7; 300], vec![7; 200]);
    (load([a, b, c, d, e, f], &mut table, &mut helper), table)
}

/// A service of two calls.
fn service(opening: String) -> Vec<String> {
    vec![
        opening,
        g("BAT", ALL, ALL),
        a("VE", ALL, ALL, ""),
        call("1000011", "", " 00800"),
        call("1000022", " 00810", ""),
    ]
}

fn refused(fplan: &[String]) -> (u32, u32, usize) {
    match loaded(fplan).0 {
        Loaded::Refused { number, file: 5, line, column, .. } => (number, line, column),
        other => panic!("{:?}", other),
    }
}

fn opened(running_time: &str, density: &str) -> Option<usize> {
    form_t(t("00042", "FERRY_", running_time, density).as_bytes())
}

#[test]
fn forms() {
    for (running_time, density) in [("0000", "0001"), ("9999", "9999"), ("0240", "0450"), ("0000", "9999")] {
        assert_eq!(opened(running_time, density), None);
    }
    // "Both are digits; density is at least 1"
    for density in ["0000", "-090", "-900", "    ", " 450", "450 ", "+450", "45"] {
        assert_eq!(opened("0240", density), Some(22), "{}", density);
    }
    for running_time in ["-240", "    ", " 240", "240", "024A"] {
        assert_eq!(opened(running_time, "0450"), Some(17), "{}", running_time);
        assert_eq!(opened(running_time, "0000"), Some(17), "{}", running_time);
    }
    // columns named by no field: 9, 16, 21, 26-58; the leftmost is told
    let right = t("00042", "FERRY_", "0240", "0450");
    for column in [9, 16, 21].into_iter().chain(26..=58) {
        let mut wrong = right.clone().into_bytes();
        wrong[column - 1] = b'x';
        assert_eq!(form_t(&wrong), Some(column));
        wrong[57] = b'x';
        assert_eq!(form_t(&wrong), Some(column));
    }
    assert_eq!(form_t(right.replace('%', " ").as_bytes()), Some(59));
    assert_eq!(form_t(b"*T"), Some(4));
    // repeats and offset stand in no field of a *T line
    assert_eq!(form_t(line(&[(1, "*T 00042 FERRY_"), (23, "023 010"), (59, "%")]).as_bytes()), Some(17));
    assert_eq!(form_t(line(&[(1, &right), (27, "010")]).as_bytes()), Some(27));
}

#[test]
fn kinds_of_lines() {
    let first = t("00001", "FERRY_", "0240", "0450");
    // *T of two bytes is a *T line and answers 4, *TT is 11; before the first *Z or *T every other line is 12
    assert_eq!(refused(&["*T".to_string()]), (4, 1, 4));
    assert_eq!(refused(&["*TT".to_string()]), (12, 1, 0));
    assert_eq!(refused(&[first.clone(), "*TT".to_string()]), (11, 2, 0));
    assert_eq!(refused(&[first.clone(), "*TT 123456789".to_string()]), (11, 2, 0));
    assert_eq!(refused(&[g("BAT", ALL, ALL), first.clone()]), (12, 1, 0));
    // 14 and 17 to 19 name the *T line, and come before the next opening line's own checks
    assert_eq!(refused(&["%".to_string(), first.clone(), "*T".to_string()]), (14, 2, 0));
    assert_eq!(refused(&[first.clone(), "*Z".to_string()]), (14, 1, 0));
    let mut bare = service(first.clone());
    bare.remove(1);
    assert_eq!(refused(&bare), (17, 1, 0));
    let mut twice = [service(z("00002", "FERRY_", "", "")), service(first)].concat();
    twice.remove(7);
    assert_eq!(refused(&twice), (18, 6, 0));
}

#[test]
fn both_kinds_in_one_file() {
    let fplan = [
        service(t("00001", "FERRY_", "0240", "0450")),
        service(z("00002", "FERRY_", "023", "010")),
        service(t("00003", "FERRY_", "0000", "9999")),
    ]
    .concat();
    let (answer, table) = loaded(&fplan);
    let size = SERVICE_WORDS + 2 * CALL_WORDS + CATEGORY_WORDS + DAYS_WORDS;
    let start = table[FIRST_SERVICE_AT] as usize;
    assert_eq!(answer, Loaded::Accepted { words: (start + 3 * size) as u32 });
    assert!(is_table(&table));
    let heads: Vec<&[u32]> = table[start..].chunks(size).take(3).collect();
    let told: Vec<[u32; 4]> =
        heads.iter().map(|head| [head[REPEATS_AT], head[OFFSET_AT], head[OPENING_LINE_AT], head[KIND_AT]]).collect();
    assert_eq!(told, [[240, 450, 1, KIND_T], [23, 10, 6, KIND_Z], [0, 9_999, 11, KIND_T]]);
    // the *Z values of No. 5 are the *T's
    assert_eq!(heads[0][SERVICE_WORDS + CALL_NUMBER_AT], 1);
    let runs = |service: u32| {
        let mut late = Vec::new();
        for run in 0.. {
            let mut rows = [0; 2 * ROW_WORDS];
            match walk(&table, service, run, 5, 12, 2025, &mut rows) {
                Walked::Rows(2) => late.push(rows[ROW_DEPARTURE_AT] - 480),
                Walked::Refused { number: 25, needed: 0 } => break,
                other => panic!("{:?}", other),
            }
            assert_eq!(rows[ROW_WORDS + ROW_ARRIVAL_AT] - 490, *late.last().unwrap());
        }
        late
    };
    let frequent = runs(0);
    assert_eq!((frequent.len(), &frequent[..4], frequent[32]), (33, &[0, 8, 15, 23][..], 240));
    assert_eq!((runs(1).len(), runs(1)[23], runs(2)), (24, 230, vec![0]));
}

/// "j times density is at most sixty times the running time", "rounded up", with products over 2^32.
#[test]
fn lateness() {
    let frequent = |running_time, density| Runs::Frequent { running_time, density };
    for (runs, last, late) in [
        (frequent(0, 1), 0, 0),
        (frequent(1, 1), 60, 1),
        (frequent(1, 60), 1, 1),
        (frequent(1, 61), 0, 0),
        (frequent(1, 59), 1, 1),
        (frequent(7, 419), 1, 7),
        (frequent(7, 421), 0, 0),
        (frequent(240, 450), 32, 240),
        (frequent(9_999, 1), 599_940, 9_999),
        (frequent(9_999, 9_999), 60, 9_999),
        (frequent(9_999, 9_998), 60, 9_998),
        (Runs::Repeated { repeats: 999, offset: 999 }, 999, 998_001),
        (Runs::Repeated { repeats: 999, offset: 0 }, 999, 0),
    ] {
        assert_eq!((runs.late(last), runs.late(last + 1), runs.late(u32::MAX)), (Some(late), None, None), "{:?}", runs);
    }
    // 5,965,233 times 720 is 464 more than 2^32
    assert_eq!(frequent(240, 720).late(5_965_233), None);
}

#[test]
fn words_of_21() {
    for (kind, words, right) in [
        (0, [999, 999], true),
        (0, [1_000, 1], false),
        (0, [1, 1_000], false),
        (0, [0, 0], true),
        (1, [9_999, 9_999], true),
        (1, [0, 1], true),
        (1, [0, 0], false),
        (1, [240, 0], false),
        (1, [10_000, 1], false),
        (1, [1, 10_000], false),
        (2, [1, 1], false),
        (u32::MAX, [0, 0], false),
    ] {
        let runs = Runs::of_words(kind, words);
        assert_eq!(runs.is_some(), right, "{} {:?}", kind, words);
        assert!(runs.map_or(true, |runs| (runs.kind(), runs.words()) == (kind, words)));
    }
}

/// The planner's runs are the reader's: for words at and around their ends, and for all runs of some.
#[test]
fn as_the_planner_has_them() {
    let ends = [0, 1, 2, 59, 60, 61, 240, 450, 998, 999, 1_000, 9_998, 9_999, 10_000, u32::MAX];
    for kind in [0, 1, 2, u32::MAX] {
        for repeats in ends {
            for offset in ends {
                let mut head = [0; SERVICE_WORDS];
                head[KIND_AT] = kind;
                head[REPEATS_AT] = repeats;
                head[OFFSET_AT] = offset;
                let (ours, theirs) = (Runs::of_words(kind, [repeats, offset]), planner_kind::Kind::of_head(&head));
                assert_eq!(ours.is_some(), theirs.is_some(), "{:?}", head);
                if let (Some(ours), Some(theirs)) = (ours, theirs) {
                    let last = theirs.last_repeat();
                    for run in [0, 1, 2, 3, last / 2, last.saturating_sub(1), last, last + 1, 1 << 31, u32::MAX] {
                        assert_eq!(ours.late(run), theirs.late(run), "{:?} {}", theirs, run);
                    }
                }
            }
        }
    }
    let all = planner_kind::Kind::Frequent { running_time: 240, density: 450 };
    assert_eq!([0, 1, 32, 33].map(|repeat| all.late(repeat)), [Some(0), Some(8), Some(240), None]);
}
