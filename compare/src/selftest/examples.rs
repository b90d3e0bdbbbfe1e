//! Document 01's "Checked examples".

use super::{a, bitfield, call, file, g, text, z};
use crate::columns::line;
use crate::layout::{
    self, CALL_NUMBER_AT, CALL_WORDS, CATEGORY_WORDS, DAYS_WORDS, ROW_CATEGORY_AT, ROW_FIRST_TIME_AT, ROW_NUMBER_AT,
    ROW_SECOND_TIME_AT, ROW_STOP_AT, ROW_WORDS,
};
use crate::reader::bits::{frame_ok, runs_on};
use crate::reader::calendar::{day_number, period, LAST_DAY, MOST_PERIOD_DAYS};
use crate::reader::fields::{date, detail, hex_words, range_end, time, Date, Time};
use crate::reader::forms::{form_interchange, form_z, MOST_CLASS};
use crate::reader::lines::{lines, skipped};
use crate::reader::load::{MOST_CALLS, MOST_FILE_BYTES};
use crate::reader::service::{from_index, to_index, Call, End};
use crate::reader::{day, interchange, is_table, load, walk, Changed, DayAnswer, Loaded, Walked};

fn stated(minutes: u32) -> Time {
    Time::Stated { minutes, barred: false }
}

/// Route R: 1000011 (dep 00800), 1000022 (00810, 00812), 1000033 (00830, 00835), 1000022 (arr 00855).
fn route_r() -> Vec<Call> {
    let call =
        |stop, arrival, departure| Call { line: 0, stop, arrival, departure, number: None, administration: None };
    vec![
        call(1_000_011, Time::Absent, stated(480)),
        call(1_000_022, stated(490), stated(492)),
        call(1_000_033, stated(510), stated(515)),
        call(1_000_022, stated(535), Time::Absent),
    ]
}

fn route_r_lines() -> Vec<String> {
    vec![
        call("1000011", "", " 00800"),
        call("1000022", " 00810", " 00812"),
        call("1000033", " 00830", " 00835"),
        call("1000022", " 00855", ""),
    ]
}

const ALL: (&str, &str) = ("", "");

/// The trial week with other FPLAN ranges, bit fields and dates.
fn trial(dates: [&str; 2], bitfields: &[String], ranges: &[String]) -> [Vec<u8>; 6] {
    let mut fplan = vec![z("00042", "FERRY_", "", "")];
    fplan.extend_from_slice(ranges);
    fplan.extend(route_r_lines());
    [
        text(&[dates[0], dates[1], "Trial week"]),
        file(bitfields),
        text(&["1000011     Alpha", "1000022     Beta", "1000033     Gamma"]),
        text(&["9999999  2  3"]),
        file(&fplan),
        text(&["BAT  4   0 BAT      0 B"]),
    ]
}

/// "FERRY_" in two words of three bytes.
const FER: u32 = 0x46_4552;
const RY_: u32 = 0x52_595F;

const WEEK: [&str; 2] = ["01.12.2025", "07.12.2025"];

fn trial_week() -> [Vec<u8>; 6] {
    trial(WEEK, &[bitfield("000001", "FE6")], &[g("BAT", ALL, ALL), a("VE", ALL, ALL, "000001")])
}

fn load_in(files: &[Vec<u8>; 6], room: usize) -> (Loaded, Vec<u32>) {
    let (mut table, mut helper) = (vec![7; room], vec![7; 200]);
    let [a, b, c, d, e, f] = files;
    let loaded = load([a, b, c, d, e, f], &mut table, &mut helper);
    (loaded, table)
}

/// A refusal that is not 4.
fn refused(number: u32, file: u32, line: u32) -> Loaded {
    Loaded::Refused { number, file, line, column: 0, needed: 0 }
}

fn broken(file: u32, line: u32, column: usize) -> Loaded {
    Loaded::Refused { number: 4, file, line, column, needed: 0 }
}

#[test]
fn dates() {
    assert_eq!(day_number(1, 1, 1900), Some(0));
    assert_eq!(day_number(30, 9, 1996), Some(35_336));
    assert_eq!(day_number(31, 12, 2199), Some(LAST_DAY));
    assert_eq!(period(35_336, day_number(1, 6, 1997).unwrap()), Some(245));
    assert!(day_number(29, 2, 2000).is_some());
    assert_eq!(day_number(29, 2, 1900), None);
    assert_eq!(period(0, 379), Some(380));
    assert_eq!(period(0, 380), None);
    assert_eq!(period(1, 0), None);
    assert_eq!(date(b"30.09.1996 start"), Date::Day(35_336));
    assert_eq!(date(b"00.00.0000"), Date::NoSuchDate);
    assert_eq!(date(b"1.09.1996 "), Date::Broken);
}

#[test]
fn every_date_once() {
    let mut next = 0;
    for year in 1899..=2201 {
        for month in 0..=13 {
            for day in 0..=32 {
                if let Some(number) = day_number(day, month, year) {
                    assert_eq!(number, next);
                    assert_eq!(crate::generate::plan::date_of(number), (day, month, year));
                    next += 1;
                }
            }
        }
    }
    assert_eq!(next, LAST_DAY + 1);
    assert_eq!(day_number(u32::MAX, u32::MAX, u32::MAX), None);
}

#[test]
fn frames() {
    let words = |digits: &str| hex_words(format!("{:0<96}", digits).as_bytes(), 1).unwrap();
    assert!(frame_ok(&words("FE6"), 7));
    let runs: Vec<u32> = (0..7).filter(|d| runs_on(&words("FE6"), *d)).collect();
    assert_eq!(runs, [0, 1, 2, 3, 4]);
    assert!(!frame_ok(&words("FE4"), 7));
    assert!(frame_ok(&words("D8"), 1));
    assert!(!runs_on(&words("D8"), 0));
    let files = trial(WEEK, &[bitfield("000001", "FE4")], &[]);
    assert_eq!(load_in(&files, 99).0, refused(8, 2, 1));
}

#[test]
fn periods_in_files() {
    let daily = [g("BAT", ALL, ALL), a("VE", ALL, ALL, "")];
    let words = 9 + 9 + 3 + 2 + 12 + 28 + 3 + 3;
    assert_eq!(load_in(&trial(["01.01.2025", "15.01.2026"], &[], &daily), 99).0, Loaded::Accepted { words });
    assert_eq!(load_in(&trial(["01.01.2025", "16.01.2026"], &[], &daily), 99).0, refused(5, 1, 2));
    assert_eq!(load_in(&trial(["01.01.2025", "31.12.2024"], &[], &daily), 99).0, refused(5, 1, 2));
}

#[test]
fn ends_on_r() {
    let route = route_r();
    let end =
        |place: &str, beside: &str| End { place: range_end(place.as_bytes(), 1), detail: detail(beside.as_bytes(), 1) };
    assert_eq!(to_index(&route, end("1000022", "")), Some(3));
    assert_eq!(from_index(&route, end("1000022", "")), Some(1));
    assert_eq!(to_index(&route, end("1000022", "#0")), Some(1));
    assert_eq!(to_index(&route, end("1000022", " 00810")), Some(1));
    assert_eq!(to_index(&route, end("1000022", "-00810")), Some(1));
    assert_eq!(from_index(&route, end("1000022", " 00812")), Some(1));
    assert_eq!(from_index(&route, end("1000022", " 00810")), None);
    assert_eq!(to_index(&route, end("1000022", "#2")), None);
    assert_eq!(from_index(&route, end("#4", "")), None);
    assert_eq!(from_index(&route, end("  #3 ", "")), Some(3));
    assert_eq!(to_index(&route, end("1000011", " 00000")), None);
    assert_eq!((from_index(&route, end("", "")), to_index(&route, end("", ""))), (Some(0), Some(3)));
}

#[test]
fn ends_in_files() {
    let with = |from, to| trial(WEEK, &[], &[g("BAT", ALL, ALL), a("VE", ALL, ALL, ""), a("FA", from, to, "")]);
    assert_eq!(load_in(&with(ALL, ("1000022", "#2")), 99).0, refused(16, 5, 4));
    assert_eq!(load_in(&with(("#4", ""), ALL), 99).0, refused(16, 5, 4));
    let (loaded, table) = load_in(&with(("1000022", ""), ("1000022", " 00810")), 99);
    assert_eq!(loaded, Loaded::Accepted { words: 73 });
    assert_eq!(table[69..73], [0x4641, 0, 1, 1]);
}

#[test]
fn stretches_by_days() {
    let bitfields = [bitfield("000001", "FE6"), bitfield("000002", "C1E")];
    let ve = |bitfield, from, to| a("VE", (from, ""), (to, ""), bitfield);
    let torn = [g("BAT", ALL, ALL), ve("000001", "", "#1"), ve("000002", "#1", "#2"), ve("000001", "#2", "")];
    assert_eq!(load_in(&trial(WEEK, &bitfields, &torn), 999).0, refused(19, 5, 1));
    let whole = [g("BAT", ALL, ALL), ve("", "", "#1"), ve("000001", "#1", "#2"), ve("000001", "#2", "")];
    assert!(matches!(load_in(&trial(WEEK, &bitfields, &whole), 999).0, Loaded::Accepted { .. }));
}

#[test]
fn the_trial_week() {
    let files = trial_week();
    let (loaded, table) = load_in(&files, 100);
    assert_eq!(loaded, Loaded::Accepted { words: 82 });
    assert_eq!(table[82..], [7; 18]);
    assert!(is_table(&table));
    let first = day_number(1, 12, 2025).unwrap();
    assert_eq!(table[..9], [82, first, 7, 1, 3, 1, 1, 36, 1]);
    assert_eq!(table[9..22], [1, 0xFE60_0000, 0, 0, 0, 0, 0, 0, 0, 0, 0, 0, 0]);
    assert_eq!(table[22..31], [1_000_011, 12, 5, 1_000_022, 30, 4, 1_000_033, 47, 5]);
    assert_eq!(table[31..36], [9_999_999, 2, 3, 4_342_100, 4]);
    assert_eq!(table[36..48], [46, 42, FER, RY_, 0, 0, 4, 1, 1, 0, 1, 0]);
    assert_eq!(table[48..62], [0, 0, 480, 2, 42, FER, RY_, 1, 490, 492, 3, 42, FER, RY_]);
    assert_eq!(table[62..76], [2, 510, 515, 3, 42, FER, RY_, 1, 535, 0, 1, 42, FER, RY_]);
    assert_eq!(table[76..82], [4_342_100, 0, 3, 1, 0, 3]);
    assert_eq!(load_in(&files, 81).0, Loaded::Refused { number: 20, file: 0, line: 0, column: 0, needed: 82 });
    assert_eq!(load_in(&files, 81).1, [7; 81]);
}

/// Document 02, No. 13: "64, and four for each line of BITFELD, BAHNHOF and UMSTEIGB", which are five lines here. Each refusal
/// with the helper words that it leaves.
#[test]
fn helper_words() {
    let with = |files: &[Vec<u8>; 6], room: usize, helper: usize| {
        let (mut table, mut helper) = (vec![7; room], vec![9; helper]);
        let [a, b, c, d, e, f] = files;
        let loaded = load([a, b, c, d, e, f], &mut table, &mut helper);
        (loaded, table == vec![7; room], helper)
    };
    let short = |needed| Loaded::Refused { number: 51, file: 0, line: 0, column: 0, needed };
    let emptied = |needed: usize, further: usize| [vec![0; needed], vec![9; further]].concat();
    let week = trial_week();
    assert_eq!(with(&week, 82, 84), (Loaded::Accepted { words: 82 }, false, emptied(84, 0)));
    assert_eq!(with(&week, 82, 90), (Loaded::Accepted { words: 82 }, false, emptied(84, 6)));
    assert_eq!(with(&week, 82, 83), (short(84), true, vec![9; 83]));
    assert_eq!(with(&week, 0, 0), (short(84), true, vec![]));
    assert_eq!(with(&week, 81, 85).2, emptied(84, 1));
    // skipped lines, and a last one without LF; neither ECKDATEN nor FPLAN nor ZUGART
    let mut more = trial_week();
    more[1].extend_from_slice(b"\n%");
    more[3].extend_from_slice(b"  \r\n\r");
    more[4].extend_from_slice(b"\n\n\n");
    more[5].extend_from_slice(b"%\n\n");
    assert_eq!(with(&more, 82, 99).0, short(100));
    assert_eq!(with(&more, 82, 101), (Loaded::Accepted { words: 82 }, false, emptied(100, 1)));
    more[0] = b"broken".to_vec();
    assert_eq!(with(&more, 82, 99).0, short(100));
    assert_eq!(with(&more, 82, 101), (broken(1, 1, 1), true, emptied(100, 1)));
    // "directly after 1"
    more[4].resize(MOST_FILE_BYTES + 1, b' ');
    assert_eq!(with(&more, 82, 99), (refused(1, 5, 0), true, vec![9; 99]));
    assert_eq!(with(&more, 82, 101), (refused(1, 5, 0), true, vec![9; 101]));
}

#[test]
fn questions_on_the_trial_week() {
    let table = load_in(&trial_week(), 82).1;
    let mut rows = vec![9; 42];
    assert_eq!(walk(&table, 0, 0, 5, 12, 2025, &mut rows), Walked::Rows(4));
    assert_eq!(rows[..10], [1_000_011, 0, 480, 2, 42, FER, RY_, 4_342_100, 2, 3]);
    assert_eq!(rows[10..20], [1_000_022, 490, 492, 3, 42, FER, RY_, 4_342_100, 2, 3]);
    assert_eq!(rows[20..30], [1_000_033, 510, 515, 3, 42, FER, RY_, 4_342_100, 2, 3]);
    assert_eq!(rows[30..], [1_000_022, 535, 0, 1, 42, FER, RY_, 0, 2, 3, 9, 9]);
    let mut none = [];
    assert_eq!(walk(&table, 0, 0, 6, 12, 2025, &mut none), Walked::NotRunning);
    assert_eq!(walk(&table, 0, 0, 5, 12, 2025, &mut none), Walked::Refused { number: 29, needed: 40 });
    assert_eq!(walk(&table, 0, 0, 8, 12, 2025, &mut none), Walked::Refused { number: 23, needed: 0 });
    assert_eq!(walk(&table, 1, 0, 5, 12, 2025, &mut none), Walked::Refused { number: 24, needed: 0 });
    assert_eq!(walk(&table, 0, 1, 5, 12, 2025, &mut none), Walked::Refused { number: 25, needed: 0 });
    assert_eq!(interchange(&table, 1_000_011, 1, 1), Changed::Minutes(2));
    assert_eq!(interchange(&table, 1_000_011, 2, 2), Changed::Minutes(2));
    assert_eq!(interchange(&table, 1_000_011, 0, 2), Changed::Minutes(2));
    assert_eq!(interchange(&table, 1_000_011, 2, 3), Changed::Minutes(3));
    assert_eq!(interchange(&table, 1_000_011, 3, 2), Changed::Minutes(3));
    assert_eq!(interchange(&table, 1_000_011, 14, 0), Changed::Refused { number: 26 });
    assert_eq!(interchange(&table, 9_999_999, 0, 0), Changed::Refused { number: 27 });
    assert_eq!(day(&table, 5, 12, 2025, 1), DayAnswer::Runs);
    assert_eq!(day(&table, 6, 12, 2025, 1), DayAnswer::Rests);
    assert_eq!(day(&table, 6, 12, 2025, 0), DayAnswer::Runs);
    assert_eq!(day(&table, 6, 12, 2025, 2), DayAnswer::Refused { number: 28 });
    assert_eq!(day(&table[..81], 6, 12, 2025, 2), DayAnswer::Refused { number: 21 });
    assert_eq!(day(&table, 31, 11, 2025, 1), DayAnswer::Refused { number: 22 });
}

/// Document 02, No. 10: "A call now holds the place of its stop in the stop section, counted from 0 .. Rows still show the number .. 21 additionally refuses
/// a place not below S." A row's number and interchange times go by the record at the place, also where words from elsewhere list a number twice.
#[test]
fn places() {
    let table = load_in(&trial_week(), 82).1;
    let shown = |row: &[u32]| [ROW_STOP_AT, ROW_FIRST_TIME_AT, ROW_SECOND_TIME_AT].map(|at| row[at]);
    let first_rows = |words: &[u32]| {
        let mut rows = [9; 4 * ROW_WORDS];
        match walk(words, 0, 0, 5, 12, 2025, &mut rows) {
            Walked::Rows(4) => Ok(rows.chunks(ROW_WORDS).map(shown).collect::<Vec<_>>()),
            Walked::Refused { number, needed: 0 } => Err(number),
            other => panic!("{:?}", other),
        }
    };
    let changed = |changes: &[(usize, u32)]| {
        let mut words = table.clone();
        changes.iter().for_each(|(at, word)| words[*at] = *word);
        first_rows(&words)
    };
    let [alpha, beta, gamma] = [[1_000_011, 2, 3], [1_000_022, 2, 3], [1_000_033, 2, 3]];
    assert_eq!(first_rows(&table), Ok(vec![alpha, beta, gamma, beta]));
    assert_eq!(changed(&[(48, 2), (69, 0)]), Ok(vec![gamma, beta, gamma, alpha]));
    // S is 3; a stop's number, three times a place, and any other are places not below it
    for place in [3, 4, 6, 1_000_011, u32::MAX] {
        assert_eq!(changed(&[(48, place)]), Err(21), "{}", place);
        assert_eq!(changed(&[(69, place)]), Err(21), "{}", place);
    }
    // the number of the record at the place, whatever it is, with its own interchange record
    assert_eq!(changed(&[(22, 7)]), Ok(vec![[7, 2, 3], beta, gamma, beta]));
    assert_eq!(changed(&[(22, 1_000_022), (31, 1_000_022)]), Ok(vec![beta, beta, [1_000_033, 2, 3], beta]));
    assert_eq!(changed(&[(22, 9_999_999)]), Ok(vec![[9_999_999, 2, 3], beta, gamma, beta]));
}

#[test]
fn repeats() {
    let mut files = trial_week();
    let fplan = String::from_utf8(files[4].clone()).unwrap();
    files[4] = fplan.replace(&z("00042", "FERRY_", "", ""), &z("00042", "FERRY_", "023", "010")).into_bytes();
    let table = load_in(&files, 82).1;
    let mut rows = [0; 40];
    let runs = (0..100).filter(|repeat| walk(&table, 0, *repeat, 5, 12, 2025, &mut rows) == Walked::Rows(4)).count();
    assert_eq!(runs, 24);
    assert_eq!(rows[1..3], [0, 480 + 230]);
    assert_eq!(rows[31..33], [535 + 230, 0]);
    assert_eq!(form_z(z("00042", "FERRY_", "023", "000").as_bytes()), Some(27));
    assert_eq!(form_z(z("00042", "FERRY_", "000", "000").as_bytes()), None);
    assert_eq!(form_z(z("00042", "FERRY_", "000", "").as_bytes()), Some(27));
}

/// Document 02, No. 5: "A blank field repeats the call before; the first call's blanks take the *Z values." Each field by itself.
#[test]
fn changes_of_number() {
    let changed = |stop: &str, arrival: &str, departure: &str, number: &str, administration: &str| {
        line(&[(1, stop), (30, arrival), (37, departure), (44, number), (50, administration), (59, "%")])
    };
    let holding = |changes: [(&str, &str); 4], days: [&str; 3]| {
        let mut files = trial_week();
        files[1] = file(&[bitfield("000001", "FE6"), bitfield("000002", "FFE")]);
        let ve = |leg: usize| a("VE", (&format!("#{}", leg), ""), (&format!("#{}", leg + 1), ""), days[leg]);
        let [first, second, third, fourth] = changes;
        files[4] = file(&[
            z("00042", "FERRY_", "", ""),
            g("BAT", ALL, ALL),
            ve(0),
            ve(1),
            ve(2),
            changed("1000011", "", " 00800", first.0, first.1),
            changed("1000022", " 00810", " 00812", second.0, second.1),
            changed("1000033", " 00830", " 00835", third.0, third.1),
            changed("1000022", " 00855", "", fourth.0, fourth.1),
        ]);
        let (loaded, table) = load_in(&files, 200);
        let words = match loaded {
            Loaded::Accepted { words } => words as usize,
            refused => panic!("{:?}", refused),
        };
        // four calls, then a *G and three *A VE
        let end = words - CATEGORY_WORDS - 3 * DAYS_WORDS;
        let calls = table[end - 4 * CALL_WORDS..end].chunks(CALL_WORDS);
        let calls: Vec<u32> = calls.flat_map(|call| call[CALL_NUMBER_AT..].iter().copied()).collect();
        // a Saturday, on which only 000002 runs
        let mut rows = [0; 4 * ROW_WORDS];
        let listed = match walk(&table, 0, 0, 6, 12, 2025, &mut rows) {
            Walked::Rows(listed) => listed as usize,
            other => panic!("{:?}", other),
        };
        let rows = rows.chunks(ROW_WORDS).take(listed);
        let told: Vec<u32> = rows.flat_map(|row| row[ROW_NUMBER_AT..ROW_CATEGORY_AT].iter().copied()).collect();
        (calls, told)
    };
    let daily = ["000002"; 3];
    let (calls, told) = holding([("", ""), ("00043", ""), ("", "QUAY_1"), ("00000", "")], daily);
    let [quay, one] = [0x51_5541, 0x59_5F31];
    assert_eq!(calls, [42, FER, RY_, 43, FER, RY_, 43, quay, one, 0, quay, one]);
    assert_eq!(told, calls);
    let (calls, _) = holding([("", "QUAY_1"), ("", ""), ("99999", "FERRY_"), ("", "")], daily);
    assert_eq!(calls, [42, quay, one, 42, quay, one, 99_999, FER, RY_, 99_999, FER, RY_]);
    // from mid-route on: what holds there
    let (calls, told) =
        holding([("00007", "QUAY_1"), ("", ""), ("", "FERRY_"), ("", "")], ["000001", "000002", "000002"]);
    assert_eq!(calls, [7, quay, one, 7, quay, one, 7, FER, RY_, 7, FER, RY_]);
    assert_eq!(told, calls[3..]);
}

/// The reader has its limits from the paper; those that the header names are the same.
#[test]
fn limits() {
    assert_eq!((MOST_FILE_BYTES, MOST_CALLS), (layout::MOST_FILE_BYTES, layout::MOST_CALLS));
    assert_eq!((MOST_PERIOD_DAYS, MOST_CLASS), (layout::MOST_PERIOD_DAYS, layout::MOST_CLASS));
}

#[test]
fn sixty_minutes() {
    assert_eq!(form_interchange(b"9999999 60 99"), None);
    assert_eq!(form_interchange(b"9999999 61 99"), Some(9));
    let mut files = trial_week();
    files[3] = text(&["9999999 61  3"]);
    assert_eq!(load_in(&files, 78).0, broken(4, 1, 9));
}

/// Document 02, No. 6.
#[test]
fn columns_of_a_broken_form() {
    let first = |line: String| {
        let mut files = trial_week();
        files[4] = file(&[z("00042", "FERRY_", "", ""), line]);
        load_in(&files, 78).0
    };
    let opened = |repeats: &str, offset: &str| form_z(z("00042", "FERRY_", repeats, offset).as_bytes());
    // "59 for a missing "%"; for repeats and offset that do not fit each other, 27"
    assert_eq!(first(g("BAT", ALL, ALL).replace('%', " ")), broken(5, 2, 59));
    assert_eq!(first("*G BAT".to_string()), broken(5, 2, 59));
    assert_eq!([opened("", "010"), opened("023", ""), opened("023", "000")], [Some(27); 3]);
    assert_eq!([opened("0 3", "010"), opened("A23", ""), opened("A23", "B"), opened("23", "000")], [Some(23); 4]);
    // an unnamed column is told itself
    assert_eq!(form_z(line(&[(1, "*Z 00042 FERRY_"), (20, "x"), (59, "%")]).as_bytes()), Some(20));
    // where the leftmost starts, a field or an unnamed column
    assert_eq!(first(call("1000011", " 00860", "x 0812")), broken(5, 2, 30));
    assert_eq!(first(line(&[(1, "1000011"), (36, "x"), (37, "?"), (59, "%")])), broken(5, 2, 36));
    // a detail is a field of its own, and beside "#1" it is not looked at
    assert_eq!(first(g("BAT", ("1000011", ""), ("1000022", " 00872"))), broken(5, 2, 31));
    assert_eq!(first(g("BAT", ("#1", "unread"), ("1000022", "#"))), broken(5, 2, 31));
}

#[test]
fn pieces() {
    let cut =
        |file: &[u8]| lines(file).iter().map(|line| (line.no, line.start, line.text.to_vec())).collect::<Vec<_>>();
    assert_eq!(cut(b""), []);
    assert_eq!(cut(b"\n"), [(1, 0, Vec::new())]);
    assert_eq!(cut(b"a\r\n\nb\r\r"), [(1, 0, b"a".to_vec()), (2, 3, Vec::new()), (3, 4, b"b\r".to_vec())]);
    assert_eq!(cut(b"a\n\r"), [(1, 0, b"a".to_vec()), (2, 2, Vec::new())]);
    assert!(skipped(b"") && skipped(b"   ") && skipped(b"%x") && !skipped(b" %") && !skipped(b"\t"));
    assert_eq!(time(b"-99959", 1), Time::Stated { minutes: 59_999, barred: true });
    assert_eq!(time(b"+00810", 1), Time::Broken);
}

#[test]
fn orders_of_offence() {
    let mut files = trial_week();
    files[0] = b"01.12.2025\n07.12.2025\nTrial week\n\r".to_vec();
    assert_eq!(load_in(&files, 78).0, refused(3, 1, 4));
    files[0] = b"01.12.2025\n30.11.2025".to_vec();
    assert_eq!(load_in(&files, 78).0, refused(5, 1, 2));
    files[0] = b"01.12.2025\n07.12.2025".to_vec();
    assert_eq!(load_in(&files, 78).0, refused(2, 1, 3));
    let mut files = trial_week();
    files[3] = b"% none\n\n".to_vec();
    assert_eq!(load_in(&files, 78).0, refused(2, 4, 3));
    let mut files = trial_week();
    files[4].splice(0..0, *b"*G\n");
    assert_eq!(load_in(&files, 78).0, refused(12, 5, 1));
    files[4].splice(0..3, *b"*Z\n");
    assert_eq!(load_in(&files, 78).0, broken(5, 1, 4));
    let mut files = trial_week();
    files[4].extend_from_slice(b"*G");
    assert_eq!(load_in(&files, 78).0, broken(5, 8, 4));
}

/// Lines of a service with so many calls and ranges, and the FPLAN lines after them.
fn refused_fplan(lines: &[String]) -> (u32, u32) {
    let mut files = trial_week();
    files[4] = file(lines);
    match load_in(&files, 9_999).0 {
        Loaded::Refused { number, file: 5, line, .. } => (number, line),
        loaded => panic!("{:?}", loaded),
    }
}

#[test]
fn orders_within_a_line() {
    let z = z("00042", "FERRY_", "", "");
    let with = |many: usize, one: String, last: String| {
        let mut lines = vec![z.clone()];
        lines.extend(std::iter::repeat(one).take(many));
        lines.push(last);
        refused_fplan(&lines)
    };
    let one = || call("1000011", " 00800", " 00800");
    // 4 before 13, 13 before 9 and 10
    assert_eq!(with(200, one(), one()), (13, 202));
    assert_eq!(with(200, one(), call("1000044", " 00800", " 00800")), (13, 202));
    assert_eq!(with(200, one(), call("1000011", " 00860", " 00800")), (4, 202));
    assert_eq!(with(199, one(), call("1000044", " 00800", " 00800")), (9, 201));
    let ve = |bitfield| a("VE", ALL, ALL, bitfield);
    assert_eq!(with(50, ve(""), ve("000009")), (13, 52));
    assert_eq!(with(49, ve(""), ve("000009")), (10, 51));
    assert_eq!(with(100, a("V ", ALL, ALL, ""), a("FA", ALL, ALL, "000009")), (13, 102));
    assert_eq!(with(50, g("BAT", ALL, ALL), g(" AT", ALL, ALL)), (4, 52));
    // 6 before 8, and before 9
    let mut files = trial_week();
    files[1] = file(&[bitfield("000001", "FE6"), bitfield("000001", "FE4")]);
    assert_eq!(load_in(&files, 99).0, refused(6, 2, 2));
    files = trial_week();
    files[3] = text(&["9999999  2  3", "9999999  2  3"]);
    assert_eq!(load_in(&files, 99).0, refused(6, 4, 2));
}

#[test]
fn orders_within_a_service() {
    let z = z("00042", "FERRY_", "", "");
    let (late, early) = (call("1000011", "", " 00800"), call("1000022", " 00759", ""));
    let nowhere = a("VE", ("#7", ""), ALL, "");
    // 14 of a service before the own checks of the next *Z; a line's own checks before 14
    assert_eq!(refused_fplan(&[z.clone(), late.clone(), "*Z".to_string()]), (14, 1));
    assert_eq!(refused_fplan(&[z.clone(), late.clone(), "*G".to_string()]), (4, 3));
    // 15 before 16, though its line comes later
    assert_eq!(refused_fplan(&[z.clone(), nowhere.clone(), late.clone(), early.clone()]), (15, 4));
    let right = call("1000022", " 00800", "");
    assert_eq!(refused_fplan(&[z.clone(), nowhere, late.clone(), right.clone()]), (16, 2));
    assert_eq!(refused_fplan(&[z.clone(), late.clone(), right.clone()]), (17, 1));
    assert_eq!(refused_fplan(&[z.clone(), g("BAT", ALL, ALL), late, right]), (18, 1));
    // 15 takes the first arrival and the last departure where they are stated
    let stated_first = call("1000011", " 00801", " 00800");
    assert_eq!(refused_fplan(&[z.clone(), stated_first, early]), (15, 2));
    let stated_last = call("1000022", " 00800", " 00759");
    assert_eq!(refused_fplan(&[z, call("1000011", "", " 00800"), stated_last]), (15, 3));
}
