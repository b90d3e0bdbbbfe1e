//! Document 02, No. 1: ZUGART by the reader. Its columns, 4, 6 and 37 line by line, 38 at a *G line's end, the words of the table, and the question
//! between two categories.

use super::{a, bitfield, call, category, file, g, text, z};
use crate::boundary::{Boundary, Reader};
use crate::columns::line;
use crate::layout::{
    BIT_FIELD_WORDS, CLASSES_AT, CLASS_AT, CLASS_WORDS, FIRST_SERVICE_AT, HEADER_WORDS, INTERCHANGE_WORDS, STOP_WORDS,
    USED_AT,
};
use crate::reader::forms::form_category;
use crate::reader::load::MOST_FILE_BYTES;
use crate::reader::{interchange, interchange_between, is_table, Changed};

const ALL: (&str, &str) = ("", "");

/// A week, two stops with times 2 and 3, a service of two calls with these *G lines, and ZUGART as given.
fn files(zugart: &[u8], ranges: &[String]) -> [Vec<u8>; 6] {
    let mut fplan = vec![z("00042", "FERRY_", "", "")];
    fplan.extend_from_slice(ranges);
    fplan.extend([a("VE", ALL, ALL, ""), call("1000011", "", " 00800"), call("1000022", " 00810", "")]);
    [
        text(&["01.12.2025", "07.12.2025", "Week"]),
        file(&[bitfield("000001", "FE6")]),
        text(&["1000011     Alpha", "1000022     Beta"]),
        text(&["9999999  2  3"]),
        file(&fplan),
        zugart.to_vec(),
    ]
}

/// number, file, line, words, column, and the table
fn loaded(files: &[Vec<u8>; 6]) -> ([u32; 5], Vec<u32>) {
    let [a, b, c, d, e, f] = files;
    let (mut table, mut helper) = (vec![7; 400], vec![7; 200]);
    (Reader.load([a, b, c, d, e, f], &mut table, &mut helper), table)
}

/// number, file, line and column for ZUGART of these lines, and a service of category BAT
fn told(zugart: &[String]) -> [u32; 4] {
    let ([number, file, line, _, column], _) = loaded(&files(&file(zugart), &[g("BAT", ALL, ALL)]));
    [number, file, line, column]
}

/// "code 1-3 (column 1 not blank), class 5-6 (count to 13), tariff group 8 (A to H or blank), output control 10 (0 to 7), output text 12-19 (any),
/// supplement 21 (0 to 2), flag 23 (N, B, F or blank), and from 25 free"
#[test]
fn forms() {
    let right = b"BAT  4 A 0 BAT      0 B $001 Boat";
    assert_eq!(form_category(right), None);
    // each byte in each column
    for column in 1..=40 {
        for byte in 0..=255_u8 {
            let mut text = right.to_vec();
            text.resize(45, b'x');
            text[column - 1] = byte;
            let (holds, start) = match column {
                1 => (byte != b' ', 1),
                2 | 3 | 12..=19 | 25..=40 => (true, column),
                5 => (matches!(byte, b' ' | b'0'), 5),
                6 => (byte.is_ascii_digit(), 5),
                8 => (b" ABCDEFGH".contains(&byte), 8),
                10 => (b"01234567".contains(&byte), 10),
                21 => (b"012".contains(&byte), 21),
                23 => (b"NBF ".contains(&byte), 23),
                _ => (byte == b' ', column),
            };
            assert_eq!(form_category(&text), Some(start).filter(|_| !holds), "column {}, byte {}", column, byte);
        }
    }
    // "count to 13"
    for (class, holds) in
        [(" 0", true), ("00", true), ("13", true), ("14", false), ("99", false), ("1 ", false), ("  ", false)]
    {
        let text = line(&[(1, "B"), (5, class), (10, "0"), (21, "0")]);
        assert_eq!(form_category(text.as_bytes()), Some(5).filter(|_| !holds), "{}", class);
    }
    // what may be missing at the end: the flag; and what may not
    assert_eq!(form_category(b"B    4   7          2"), None);
    assert_eq!(form_category(b"B    4   7"), Some(21));
    assert_eq!(form_category(b"B    4"), Some(10));
    assert_eq!(form_category(b"B"), Some(5));
    // the leftmost is told
    assert_eq!(form_category(b" B   4xI 8x         3xX"), Some(1));
    assert_eq!(form_category(b"B    4xI 8x         3xX"), Some(7));
    assert_eq!(form_category(b"B    4 I 8x         3xX"), Some(8));
}

/// "6 for a repeated code, then 37 for a tariff group missing or alone (first line that has one where the file's first has none, or the other way)"
#[test]
fn offences_line_by_line() {
    let (bat, plain, grouped) = (category("BAT", 4, ""), category("ICE", 0, ""), category("IC", 1, "B"));
    let broken = category("IR", 14, "");
    assert_eq!(told(&[bat.clone(), plain.clone()]), [0; 4]);
    assert_eq!(told(&[bat.clone(), bat.clone()]), [6, 6, 2, 0]);
    // 37 both ways
    assert_eq!(told(&[bat.clone(), plain.clone(), grouped.clone()]), [37, 6, 3, 0]);
    assert_eq!(told(&[grouped.clone(), bat.clone(), plain.clone()]), [37, 6, 2, 0]);
    assert_eq!(told(&[category("BAT", 4, "A"), grouped.clone(), plain.clone(), grouped.clone()]), [37, 6, 3, 0]);
    // 6 before 37 in a line; 37 at line 2 before 4 and 6 at line 3, 4 at line 2 before 37 at line 3
    assert_eq!(told(&[bat.clone(), category("BAT", 4, "A")]), [6, 6, 2, 0]);
    assert_eq!(told(&[bat.clone(), grouped.clone(), broken.clone()]), [37, 6, 2, 0]);
    assert_eq!(told(&[bat.clone(), grouped.clone(), bat.clone()]), [37, 6, 2, 0]);
    assert_eq!(told(&[bat.clone(), broken, grouped.clone()]), [4, 6, 2, 5]);
    // the file's first is its first line that is not skipped
    let skipped = "%          A".to_string();
    assert_eq!(told(&[skipped, String::new(), grouped.clone(), plain]), [37, 6, 4, 0]);
    assert_eq!(told(&["%      A".to_string(), bat]), [0; 4]);
    // 4 before 6
    assert_eq!(told(&[grouped.clone(), grouped.replace(" 1 ", "14 ")]), [4, 6, 2, 5]);
}

/// Codes are three bytes as they stand.
#[test]
fn codes() {
    let alike = ["B", "b", "BA", "BAT", "BAt", "BAS", "B T", "BT"];
    let lines: Vec<String> = alike.iter().map(|code| category(code, 4, "")).collect();
    assert_eq!(told(&lines), [0; 4]);
    for code in ["bat", "BA", "BAS", "B", "BTA"] {
        assert_eq!(told(&[category(code, 4, "")]), [38, 5, 2, 0], "{}", code);
    }
}

/// "38 for a *G category not listed, last in its line"; an empty ZUGART is accepted, and then every *G is 38.
#[test]
fn unlisted() {
    let bat = file(&[category("BAT", 4, "")]);
    let of = |zugart: &[u8], ranges: &[String]| {
        let ([number, file, line, _, column], _) = loaded(&files(zugart, ranges));
        [number, file, line, column]
    };
    let cat = g("CAT", ALL, ALL);
    assert_eq!(of(&bat, std::slice::from_ref(&cat)), [38, 5, 2, 0]);
    for empty in [&b""[..], b"\n", b"% BAT  4   0          0\n  \r\n"] {
        assert_eq!(of(empty, &[g("BAT", ALL, ALL)]), [38, 5, 2, 0]);
        let mut none = files(empty, &[]);
        none[4].clear();
        let (answer, table) = loaded(&none);
        assert_eq!((answer[0], table[CLASSES_AT], is_table(&table)), (0, 0, true));
    }
    // after 4 and 13 of its line, before the service's own 14 to 19 and before later lines
    assert_eq!(of(&bat, &[cat.replace('%', " ")]), [4, 5, 2, 59]);
    let fifty = || vec![g("BAT", ALL, ALL); 50];
    assert_eq!(of(&bat, &[fifty(), vec![cat.clone()]].concat()), [13, 5, 52, 0]);
    assert_eq!(of(&bat, &[vec![cat.clone()], fifty()].concat()), [38, 5, 2, 0]);
    assert_eq!(of(&bat, &[cat.clone(), g("BAT", ("#7", ""), ALL)]), [38, 5, 2, 0]);
    let mut few = files(&bat, std::slice::from_ref(&cat));
    few[4] = file(&[z("00042", "FERRY_", "", ""), cat]);
    assert_eq!(loaded(&few).0, [38, 5, 2, 0, 0]);
}

/// "ZUGART is file 6, its lengths and lines checked after UMSTEIGB's"
#[test]
fn order_of_files() {
    let first = |broken: &[usize]| {
        let mut all = files(&file(&[category("BAT", 4, "")]), &[g("BAT", ALL, ALL)]);
        broken.iter().for_each(|number| all[number - 1] = b"?".to_vec());
        loaded(&all).0[1]
    };
    assert_eq!([first(&[4, 6, 5]), first(&[6, 5]), first(&[5]), first(&[3, 6])], [4, 6, 5, 3]);
    let longest = |long: &[usize]| {
        let mut all = files(b"?", &[]);
        long.iter().for_each(|number| all[number - 1] = vec![b' '; MOST_FILE_BYTES + 1]);
        loaded(&all).0
    };
    assert_eq!(longest(&[5, 6]), [1, 6, 0, 0, 0]);
    assert_eq!(longest(&[4, 6]), [1, 4, 0, 0, 0]);
    assert_eq!(longest(&[5]), [1, 5, 0, 0, 0]);
}

/// "The header grows to nine words, the last being the count of categories; a section of two words each (code, class) stands before the services, and 21
/// reads the new sizes and refuses a class over 13."
#[test]
fn words_of_the_table() {
    let zugart = file(&[category("BAT", 4, ""), category("b", 13, ""), category("%", 1, ""), category("IC", 0, "")]);
    let (answer, table) = loaded(&files(&zugart, &[g("BAT", ALL, ALL)]));
    let start = HEADER_WORDS + BIT_FIELD_WORDS + 2 * STOP_WORDS + INTERCHANGE_WORDS;
    assert_eq!((answer[0], table[CLASSES_AT], table[FIRST_SERVICE_AT] as usize), (0, 3, start + 3 * CLASS_WORDS));
    assert_eq!(table[start..start + 3 * CLASS_WORDS], [0x42_4154, 4, 0x62_2020, 13, 0x49_4320, 0]);
    let with = |at: usize, word: u32| {
        let mut words = table.clone();
        words[at] = word;
        is_table(&words)
    };
    assert!(is_table(&table) && with(start + CLASS_AT, 13) && with(start, u32::MAX));
    // a code listed twice
    assert!(with(start, table[start + CLASS_WORDS]));
    let class_of = |category: usize| start + CLASS_WORDS * category + CLASS_AT;
    assert!(!with(class_of(0), 14) && !with(class_of(2), 14) && !with(class_of(1), u32::MAX));
    assert!(!with(CLASSES_AT, 2) && !with(CLASSES_AT, 4) && !with(CLASSES_AT, 3 + (1 << 31)));
    assert!(!is_table(&table[..8]) && !with(USED_AT, 8));
}

/// "The new question takes a stop and two categories"; 38 "in the question, after 27".
#[test]
fn between() {
    let zugart = file(&[category("BAT", 4, ""), category("IC", 2, ""), category("ICE", 0, "")]);
    let (_, table) = loaded(&files(&zugart, &[g("BAT", ALL, ALL)]));
    let [bat, ic, ice, small] = [0x42_4154, 0x49_4320, 0x49_4345, 0x69_6320];
    let minutes = |arriving, departing| interchange_between(&table, 1_000_011, arriving, departing);
    for (arriving, departing, expected) in
        [(ic, ice, 2), (ice, ic, 2), (ic, ic, 2), (bat, ic, 3), (ic, bat, 3), (bat, bat, 3)]
    {
        assert_eq!(minutes(arriving, departing), Changed::Minutes(expected));
    }
    for (arriving, departing) in [(small, ic), (ic, small), (small, small), (0, ic), (ic, ic | 1 << 24), (u32::MAX, 0)]
    {
        assert_eq!(minutes(arriving, departing), Changed::Refused { number: 38 });
    }
    assert_eq!(interchange_between(&table, 9_999_999, ic, ic), Changed::Refused { number: 27 });
    assert_eq!(interchange_between(&table, 9_999_999, small, ic), Changed::Refused { number: 27 });
    assert_eq!(interchange_between(&table[..20], 9_999_999, small, ic), Changed::Refused { number: 21 });
    // a code listed twice, by words from elsewhere: the first match; and the question between classes stays
    let mut twice = table.clone();
    let start = table[FIRST_SERVICE_AT] as usize - 3 * CLASS_WORDS;
    twice[start] = ic;
    assert_eq!(interchange_between(&twice, 1_000_011, ic, ice), Changed::Minutes(3));
    assert_eq!(interchange(&table, 1_000_011, 2, 2), Changed::Minutes(2));
    assert_eq!(interchange(&table, 1_000_011, 14, 2), Changed::Refused { number: 26 });
}
