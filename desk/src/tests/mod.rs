//! Screens: what the program prints for each number, and for files that look right. `screens.txt` holds them all.

use std::collections::BTreeSet;
use std::path::Path;

use estelunya_planner::by_number::load_with;
use estelunya_planner::layout::MOST_FILE_BYTES;
use estelunya_planner::{Date, File};

use super::explain::{tell, Answer};
use super::form::frame;
use super::lines::{lines, Delivery, BAHNHOF, BITFELD, ECKDATEN, FPLAN, UMSTEIGB, ZUGART};
use super::report::{self, answer, files, loaded, Options};
use super::screen::screen;
use super::survey::Survey;

mod broken;
mod compared;
mod json;

const SCREENS: &str = include_str!("screens.txt");

/// As without a word, on the first day of the trial week.
fn options() -> Options {
    Options::new("01.12.2025".parse().unwrap())
}

fn told(delivery: &Delivery, all: bool) -> (i32, String) {
    report::told(delivery, &Options { all, ..options() })
}

fn trial_week() -> Delivery {
    Delivery {
        files: [
            include_bytes!("../../../crates/ferry/data/ECKDATEN").to_vec(),
            include_bytes!("../../../crates/ferry/data/BITFELD").to_vec(),
            include_bytes!("../../../crates/ferry/data/BAHNHOF").to_vec(),
            include_bytes!("../../../crates/ferry/data/UMSTEIGB").to_vec(),
            include_bytes!("../../../crates/ferry/data/FPLAN").to_vec(),
            include_bytes!("../../../crates/ferry/data/ZUGART").to_vec(),
        ],
    }
}

/// The trial week with another file.
fn with_file(file: u32, bytes: &[u8]) -> Delivery {
    let mut delivery = trial_week();
    delivery.files[file as usize - 1] = bytes.to_vec();
    delivery
}

/// The trial week with a line in place of that of a number, or after the last.
fn with_line(file: u32, number: usize, line: &str) -> Delivery {
    let mut all: Vec<Vec<u8>> = lines(trial_week().file(file)).map(<[u8]>::to_vec).collect();
    let at = number - 1;
    all.splice(at..all.len().min(at + 1), [line.as_bytes().to_vec()]);
    with_file(file, &[all.join(&b'\n'), b"\n".to_vec()].concat())
}

/// FPLAN of these lines, each filled up to its "%".
fn plan(lines: &[&str]) -> Vec<u8> {
    lines.iter().map(|line| format!("{:58}%\n", line)).collect::<String>().into_bytes()
}

fn bits(number: &str, digits: &str) -> String {
    format!("{} {:0<96}", number, digits)
}

const ROUTE: [&str; 4] = [
    "1000011                              00800",
    "1000022                       00810  00812",
    "1000033                       00830  00835",
    "1000022                       00855",
];

fn with_plan(head: &[&str]) -> Delivery {
    with_file(FPLAN, &plan(&[&["*Z 00042 FERRY_"], head, &ROUTE].concat()))
}

/// Name, delivery, whether `--all` is given.
fn cases() -> Vec<(&'static str, Delivery, bool)> {
    let gs = vec!["*G BAT"; 51];
    let utf16 = |bytes: &[u8]| [vec![0xFF, 0xFE], bytes.iter().flat_map(|byte| [*byte, 0]).collect()].concat();
    let week = trial_week();
    let cr_only: Vec<u8> = week.file(FPLAN).iter().map(|byte| if *byte == b'\n' { b'\r' } else { *byte }).collect();
    let stripped = String::from_utf8(week.file(FPLAN).to_vec()).unwrap().replace('%', "");
    let long = vec![b' '; MOST_FILE_BYTES + 1];
    let records_cr = b"9999999  2  3 all stops\r1000011  4  5\r";
    let mut listed = vec![
        ("accepted", trial_week(), false),
        ("no services", with_file(FPLAN, b""), false),
        ("1", with_file(FPLAN, &long), false),
        ("2, ECKDATEN", with_file(ECKDATEN, b"01.12.2025\n07.12.2025\n"), false),
        ("2, UMSTEIGB", with_file(UMSTEIGB, b"% none\n"), false),
        ("3", with_file(ECKDATEN, b"01.12.2025\n07.12.2025\nTrial week\n\n"), false),
        ("4, a date", with_line(ECKDATEN, 1, "1.12.2025"), false),
        ("4, small letters", with_line(BITFELD, 1, &bits("000001", "fe6")), false),
        ("4, hex digits missing", with_line(BITFELD, 1, "000001 FE6"), false),
        ("4, a name too early", with_line(BAHNHOF, 2, "1000022 Quay B"), false),
        ("4, 61 minutes", with_line(UMSTEIGB, 1, "9999999 61  3"), false),
        ("4, a number too far left", with_line(UMSTEIGB, 1, "9999999 2  3"), false),
        ("4, repeats without offset", with_line(FPLAN, 1, &format!("{:58}%", "*Z 00042 FERRY_       023")), false),
        ("4, a sign in a density", with_line(FPLAN, 1, &format!("{:58}%", "*T 00042 FERRY_ 0720 -0900")), false),
        (
            "4, minutes over 59",
            with_line(FPLAN, 5, &format!("{:58}%", "1000022                       00872  00912")),
            false,
        ),
        ("4, a detail with +", with_line(FPLAN, 2, &format!("{:58}%", "*G BAT 1000011 1000022        +00855")), false),
        ("4, class 14", with_line(ZUGART, 1, "BAT 14   0 BAT      0 B"), false),
        ("4, a tariff group", with_line(ZUGART, 1, "BAT  4 I 0 BAT      0 B"), false),
        ("4, no supplement", with_line(ZUGART, 1, "BAT  4   0 BAT"), false),
        ("4, a line of 5.5.1", with_line(ZUGART, 2, "<German>"), false),
        ("4, a date with hyphens", with_line(ECKDATEN, 2, "07-12-2025"), false),
        ("5, no such month", with_line(ECKDATEN, 2, "07.13.2025"), false),
        ("5, the end before the start", with_line(ECKDATEN, 2, "30.11.2025"), false),
        ("5, 381 days", with_line(ECKDATEN, 2, "16.12.2026"), false),
        ("6, BITFELD", with_line(BITFELD, 2, &bits("000001", "C06")), false),
        ("6, BAHNHOF", with_line(BAHNHOF, 4, "1000011     Quay A"), false),
        ("6, ZUGART", with_line(ZUGART, 2, "BAT  5   0 BAT      0 B"), false),
        ("7, BITFELD", with_line(BITFELD, 1, &bits("000000", "FE6")), false),
        ("7, BAHNHOF", with_line(BAHNHOF, 2, "1000000     Quay B"), false),
        ("7, UMSTEIGB", with_line(UMSTEIGB, 1, "1000011  4  5"), false),
        ("8", with_line(BITFELD, 1, &bits("000001", "FE4")), false),
        ("8, of another period", with_line(BITFELD, 1, &bits("000001", "FF98")), false),
        ("9, UMSTEIGB", with_line(UMSTEIGB, 2, "1000044  4  5"), false),
        ("9, FPLAN", with_line(FPLAN, 5, &format!("{:58}%", "1000044                       00810  00812")), false),
        ("10", with_line(FPLAN, 3, &format!("{:58}%", "*A VE                 000007")), false),
        ("11", with_line(FPLAN, 8, &format!("{:58}%", "*L 00001000")), false),
        ("12", with_file(FPLAN, &plan(&["*G BAT"])), false),
        ("12, small letters", with_line(FPLAN, 1, &format!("{:58}%", "*z 00042 FERRY_")), false),
        ("13", with_plan(&gs), false),
        (
            "14",
            with_file(FPLAN, &plan(&["*Z 00042 FERRY_", "*G BAT", "*A VE                 000001", ROUTE[0]])),
            false,
        ),
        ("15, missing", with_line(FPLAN, 5, &format!("{:58}%", "1000022                              00812")), false),
        ("15, earlier", with_line(FPLAN, 7, &format!("{:58}%", "1000022                       00015")), false),
        ("16, not called at", with_plan(&["*G BAT 1000044", "*A VE                 000001"]), false),
        ("16, # too large", with_plan(&["*G BAT", "*A VE              #4 000001"]), false),
        ("16, a time", with_plan(&["*G BAT 1000022          00813", "*A VE"]), false),
        ("16, order", with_line(FPLAN, 8, &format!("{:58}%", "*A FA 1000033 1000022                00810")), false),
        ("17", with_plan(&["*G BAT         1000033", "*A VE                 000001"]), false),
        ("18", with_plan(&["*G BAT", "*A VE         1000033 000001", "*A VE 1000022         000000"]), false),
        (
            "19",
            with_plan(&[
                "*G BAT",
                "*A VE         1000022 000000            #0",
                "*A VE 1000022 1000033 000001",
                "*A VE 1000033         000000",
            ]),
            false,
        ),
        ("37, alone", with_line(ZUGART, 2, "CAT  5 A 0 CAT      0 B"), false),
        (
            "37, missing",
            with_file(ZUGART, b"% ships\nBAT  4 A 0 BAT      0 B\nCAT  5 B 0 CAT      0 B\nKAT  5   0 KAT      0 B\n"),
            false,
        ),
        ("38", with_line(FPLAN, 2, &format!("{:58}%", "*G CAT")), false),
        ("38, in small letters", with_line(FPLAN, 2, &format!("{:58}%", "*G bat")), false),
        ("38, no categories", with_file(ZUGART, b"% none\n"), false),
        ("38, CR only", with_file(ZUGART, b"CAT  4   0 CAT      0   Cat\rBAT  4   0 BAT      0\r"), false),
        ("9, CR only", with_file(BAHNHOF, b"1000011     Quay A\r1000022     Quay B\r1000033     Quay C\r"), false),
        ("9, a CR inside", with_file(BAHNHOF, b"1000011     Quay A\r1000022     Quay B\n1000033     Quay C\n"), false),
        ("39, no $", with_line(BAHNHOF, 2, "1000022     Quay B<d>"), false),
        ("39, cut", with_line(BAHNHOF, 2, "1000022     Louvain [B]$<f>$Leuven [B]$<n>$Louvain$<f2>Louv$<f1>"), false),
        ("a byte order mark", with_file(ECKDATEN, &[b"\xEF\xBB\xBF", week.file(ECKDATEN)].concat()), false),
        ("UTF-16", with_file(BAHNHOF, &utf16(week.file(BAHNHOF))), false),
        ("CR only", with_file(FPLAN, &cr_only), false),
        ("CR only, accepted", with_file(UMSTEIGB, records_cr), false),
        ("a tab", with_line(UMSTEIGB, 1, "9999999\t 2  3"), false),
        ("an indented *Z", with_line(FPLAN, 1, &format!("{:58}%", "  *Z 00042 FERRY_")), false),
        (
            "a letter of two bytes",
            with_line(FPLAN, 5, "1000022 M\u{fc}hle               00810  00812                %"),
            false,
        ),
        (
            "\"%\" in another column",
            with_line(FPLAN, 5, "1000022                       00810  00812              %"),
            false,
        ),
        ("--all, stripped \"%\"", with_file(FPLAN, stripped.as_bytes()), true),
        ("--all, nothing else", with_line(FPLAN, 3, &format!("{:58}%", "*A VE                 000007")), true),
        (
            "--all, three fields of a line",
            with_line(FPLAN, 5, &format!("{:58}%", "1000022                       00872  0081x 4")),
            true,
        ),
        (
            "--all, 15 behind 10",
            with_file(
                FPLAN,
                &plan(&[
                    "*Z 00042 FERRY_",
                    "*G BAT",
                    "*A VE                 000007",
                    ROUTE[0],
                    ROUTE[3],
                    ROUTE[1],
                    ROUTE[3],
                ]),
            ),
            true,
        ),
        (
            "--all, a time behind an unknown category",
            with_file(
                FPLAN,
                &plan(&[
                    "*Z 00042 FERRY_",
                    "*G CAT",
                    "*A VE                 000001",
                    ROUTE[0],
                    ROUTE[3],
                    ROUTE[1],
                    ROUTE[3],
                ]),
            ),
            true,
        ),
        ("--all, dates", with_file(ECKDATEN, b"1.12.2025\n07.13.2025\nTrial week\n"), true),
    ];
    let several = [
        &ROUTE[..1],
        &["*Z 00042 FERRY_", "*G BAT         1000033", "*A VE                 000001"],
        &ROUTE,
        &["*Z 0004  FERRY_", "*G BAT         1000033", "*A VE                 000001"],
        &ROUTE,
        &["*Z 00044 FERRY_", "*G BAT", "*I", "*A VE                 000008"],
        &ROUTE,
        &["*Z 00045 FERRY_", "*G BAT"],
        &ROUTE,
    ];
    listed.push(("--all, several services", with_file(FPLAN, &plan(&several.concat())), true));
    let behind =
        with_file(FPLAN, &plan(&["*Z 00042 FERRY_", "*G BAT         1000033", ROUTE[0], ROUTE[2], ROUTE[1], ROUTE[3]]));
    listed.push(("--all, what follows a refused check of a service", behind, true));
    let mut six = with_file(
        FPLAN,
        &plan(&[&["*Z 00042 FERRY_", "*G BAT", "*A VE                 000001"], &ROUTE[..], &["*I"]].concat()),
    );
    six.files[ECKDATEN as usize - 1] = b"01.12.2025\n07.12.2025\nTrial week\nand more\n".to_vec();
    six.files[BITFELD as usize - 1] = (bits("000001", "FE4") + "\n").into_bytes();
    six.files[BAHNHOF as usize - 1] = b"1000011     Quay A<d>\n1000022     Quay B\n1000033     Quay C\n".to_vec();
    six.files[UMSTEIGB as usize - 1] = b"9999999 61  3\n".to_vec();
    six.files[ZUGART as usize - 1] = b"BAT 14   0 BAT      0 B\n".to_vec();
    listed.push(("--all, one of each file", six, true));
    let records = b"1000011  4  5\n1000022 4 5\n9999999  2  3\n1000044  4  5\n1000011  4  5\n";
    listed.push(("--all, UMSTEIGB", with_file(UMSTEIGB, records), true));
    let categories = b"BAT  4   0 BAT      0 B\nCAT 14   0 CAT      0\nBAT  4   0 BAT      0 B\nKAT  4 C 0 KAT      0\n<text>\n<German>\n";
    listed.push(("--all, ZUGART", with_file(ZUGART, categories), true));
    listed
}

fn titled(name: &str, text: &str) -> String {
    format!("==== {}\n{}\n", name, text)
}

/// All screens, one after the other; 20 and 51 cannot occur here, since the program lends enough.
fn all_screens() -> String {
    let mut text: String = cases().iter().map(|(name, delivery, all)| titled(name, &told(delivery, *all).1)).collect();
    let week = trial_week();
    let short = load_with(&files(&week), &mut [0; 81], &mut [0; 84]).map_err(answer).unwrap_err();
    let helper = load_with(&files(&week), &mut [0; 82], &mut [0; 83]).map_err(answer).unwrap_err();
    for (name, refusal) in [("20", short), ("51", helper)] {
        text.push_str(&titled(name, &screen(&week, &refusal, &tell(&week, &refusal))));
    }
    text
}

/// To renew the file after a change that is meant: DESK_SCREENS=FILE writes what is printed now.
#[test]
fn screens() {
    let now = all_screens();
    if let Some(path) = std::env::var_os("DESK_SCREENS") {
        std::fs::write(path, &now).unwrap();
    }
    same_lines(SCREENS, &now);
}

/// Compares screens line by line, and says in which they differ.
fn same_lines(wanted: &str, printed: &str) {
    let (mut wanted, mut printed) = (wanted.lines(), printed.lines());
    let mut title = "";
    loop {
        let pair = (wanted.next(), printed.next());
        title = pair.0.filter(|line| line.starts_with("====")).unwrap_or(title);
        assert_eq!(pair.0, pair.1, "in {}", title);
        if pair.0.is_none() {
            return;
        }
    }
}

#[test]
fn every_number_has_a_screen() {
    let number =
        |line: &str| line.strip_prefix("refused ").map(|rest| rest.split(' ').next().unwrap().parse::<u32>().unwrap());
    let shown: BTreeSet<u32> = SCREENS.lines().filter_map(number).collect();
    assert!(shown.into_iter().eq((1..=20).chain([37, 38, 39, 51])));
}

/// Each place that a screen sends to is in REFUSALS.md.
#[test]
fn places_in_refusals() {
    let document = include_str!("../../../docs/REFUSALS.md");
    let places: BTreeSet<&str> =
        SCREENS.lines().filter_map(|line| line.split_once("REFUSALS.md#")).map(|(_, place)| place).collect();
    assert!(places.len() > 25);
    for place in places {
        assert_eq!(document.matches(&format!("<a id=\"{}\"></a>", place)).count(), 1, "{}", place);
        assert!(document.contains(&format!("(#{})", place)), "no link to {}", place);
    }
}

/// What REFUSALS.md says of files that look right.
#[test]
fn looks_right() {
    let refused = |delivery: &Delivery| loaded(delivery).map(|_| ()).map_err(|it| (it.number, it.line, it.column));
    let week = trial_week();
    for (file, wanted, moved) in [
        (ECKDATEN, (4, 1, 1), (4, 1, 1)),
        (BITFELD, (4, 1, 1), (4, 1, 1)),
        (BAHNHOF, (4, 1, 1), (4, 1, 1)),
        (UMSTEIGB, (4, 1, 1), (4, 1, 1)),
        (FPLAN, (12, 1, 0), (12, 1, 0)),
        (ZUGART, (4, 1, 1), (4, 1, 4)),
    ] {
        let marked = [b"\xEF\xBB\xBF", week.file(file)].concat();
        assert_eq!(refused(&with_file(file, &marked)), Err(moved));
        let wide: Vec<u8> =
            [0xFF, 0xFE].into_iter().chain(week.file(file).iter().flat_map(|byte| [*byte, 0])).collect();
        assert_eq!(refused(&with_file(file, &wide)), Err(moved));
        let indented = [b" ", week.file(file)].concat();
        assert_eq!(refused(&with_file(file, &indented)), Err(wanted));
    }
    let cr = |file: u32, more: &str| -> Delivery {
        let bytes = [week.file(file), more.as_bytes()].concat();
        with_file(file, &bytes.iter().map(|byte| if *byte == b'\n' { b'\r' } else { *byte }).collect::<Vec<u8>>())
    };
    assert_eq!(refused(&cr(ECKDATEN, "")), Err((2, 2, 0)));
    assert_eq!(refused(&cr(BITFELD, &bits("000002", "FE6"))), Err((4, 1, 104)));
    assert_eq!(refused(&cr(BAHNHOF, "")), Err((9, 5, 0)));
    assert_eq!(refused(&cr(UMSTEIGB, "1000011  4  5\n")), Err((4, 1, 14)));
    let remark = with_file(UMSTEIGB, b"9999999  2  3 all stops\r1000011  4  5\r");
    assert_eq!(loaded(&remark).map(|words| words[5]), Ok(1));
    let more = with_file(ZUGART, b"BAT  4   0 BAT      0 B Boat\rCAT  4   0 CAT      0\r");
    assert_eq!(loaded(&more).map(|words| words[8]), Ok(1));
    let remarked = [b"% made at night\n", week.file(FPLAN)].concat();
    let remarked: Vec<u8> = remarked.iter().map(|byte| if *byte == b'\n' { b'\r' } else { *byte }).collect();
    assert_eq!(loaded(&with_file(FPLAN, &remarked)).map(|words| words[6]), Ok(0));
    assert_eq!(refused(&cr(FPLAN, "")), Err((14, 1, 0)));
    assert_eq!(refused(&cr(ZUGART, "CAT  4   0 CAT      0 B\n")), Err((4, 1, 24)));
    assert_eq!(refused(&with_file(ZUGART, b"CAT  4   0 CAT      0\rBAT  4   0 BAT      0\r")), Err((4, 1, 22)));
    assert_eq!(refused(&with_file(ZUGART, b"CAT  4   0 CAT      0   Cat\rBAT  4   0 BAT      0\r")), Err((38, 2, 0)));
    assert_eq!(refused(&with_line(FPLAN, 2, &format!("{:58}%", " *G BAT"))), Err((11, 2, 0)));
    assert_eq!(refused(&with_line(FPLAN, 2, &format!("{:58}%", "*G\tBAT"))), Err((11, 2, 0)));
    assert_eq!(refused(&with_line(FPLAN, 1, &format!("{:58}%", "*Z\t00042 FERRY_"))), Err((12, 1, 0)));
    assert_eq!(refused(&with_line(FPLAN, 1, &format!("{:58}%", "*Z 00042\tFERRY_"))), Err((4, 1, 9)));
    assert_eq!(refused(&with_line(ECKDATEN, 4, "")), Err((3, 4, 0)));
    // lines that are passed over make no service
    assert_eq!(loaded(&with_file(FPLAN, b"% rests\n  \n")).map(|words| words[6]), Ok(0));
    assert_eq!(
        loaded(&Delivery { files: [week.files[0].clone(), vec![], vec![], week.files[3].clone(), vec![], vec![]] })
            .map(|words| (words[6], words[8])),
        Ok((0, 0))
    );
}

/// REFUSALS.md's table of where the second pair of ones stands, for every period.
#[test]
fn second_pair() {
    for days in 1..=380_usize {
        let q = days / 4;
        let mut digits = ["C", &"0".repeat(95)].concat().into_bytes();
        let pair = match days % 4 {
            0 => vec![(8 + q, 3)],
            1 => vec![(8 + q, 1), (9 + q, 8)],
            2 => vec![(9 + q, 0xC)],
            _ => vec![(9 + q, 6)],
        };
        for (column, value) in pair {
            let digit = &mut digits[column - 8];
            let old = char::from(*digit).to_digit(16).unwrap() as u8;
            *digit = b"0123456789ABCDEF"[usize::from(old | value)];
        }
        let line = [b"000001 ".to_vec(), digits].concat();
        assert_eq!(frame(&line, days), None, "{}", days);
        let mut delivery = with_file(BITFELD, &line);
        let first: Date = "01.12.2025".parse().unwrap();
        let last = Date::from_day_number(first.day_number() + days as u32 - 1).unwrap();
        delivery.files[0] = format!("01.12.2025\n{}\n\n", last).into_bytes();
        assert_eq!(loaded(&delivery).map(|words| words[2] as usize), Ok(days));
    }
}

/// Status 0, 1 and 2; the table has room whatever the delivery.
#[test]
fn status() {
    assert_eq!(told(&trial_week(), false).0, 0);
    assert_eq!(told(&with_file(ECKDATEN, b""), false).0, 1);
    assert_eq!(told(&with_file(ECKDATEN, b""), true).0, 1);
    // 3: accepted, and to be looked at
    assert_eq!(told(&with_file(FPLAN, b""), false).0, 3);
    assert_eq!(report::told(&trial_week(), &Options::new("08.12.2025".parse().unwrap())).0, 3);
    let (status, text) = report::run(Path::new("no such directory"), &options());
    assert_eq!(status, 2);
    // all six at once
    assert!(text.starts_with("unread file 1\nECKDATEN: ") && text.contains("\nFPLAN: "), "{}", text);
}

/// Many services: no file is too large, and `--all` finds each of many offences.
#[test]
fn many() {
    let service = plan(&[&["*Z 00042 FERRY_", "*G BAT", "*A VE                 000001"], &ROUTE[..]].concat());
    let good = with_file(FPLAN, &service.repeat(2_000));
    assert_eq!(loaded(&good).map(|words| words[0] > 60_000), Ok(true));
    let bad = plan(&["*Z 00042 FERRY_", "*G BAT", "*A VE                 000009"]);
    let broken = with_file(FPLAN, &[service.repeat(50), bad].concat().repeat(20));
    let (status, text) = told(&broken, true);
    // each lacks its calls too; five of a kind are shown
    let counts = ["likely 10 file 5", "likely 14 file 5"].map(|told| text.matches(told).count());
    assert_eq!((status, counts), (1, [4, 5]));
    assert!(text.contains("--all: 40 offences of 2 kinds in all six files; "), "{}", text);
    assert!(text.contains("\n       20  FPLAN, 10 - bit field unknown\n"), "{}", text);
    assert!(text.contains(" and 10 more not all of 14 to 19 could be checked"));
    let (_, text) = report::told(&broken, &Options { all: true, most: Some(30), ..options() });
    assert_eq!(["likely 10 file 5", "likely 14 file 5"].map(|told| text.matches(told).count()), [19, 20]);
}

/// Whatever the bytes are, the program finds a reason for what the loader has answered.
#[test]
fn any_bytes() {
    let mut seed = 1_u64;
    let mut next = move |below: usize| {
        seed = seed.wrapping_mul(6_364_136_223_846_793_005).wrapping_add(1_442_695_040_888_963_407);
        (seed >> 33) as usize % below
    };
    let deliveries: Vec<Delivery> =
        cases().into_iter().filter(|(name, _, _)| *name != "1").map(|case| case.1).collect();
    for _ in 0..2_000 {
        let mut delivery = deliveries[next(deliveries.len())].clone();
        for _ in 0..=next(3) {
            let file = next(6);
            let bytes = &mut delivery.files[file];
            let at = next(bytes.len() + 1);
            match next(4) {
                0 => bytes.truncate(at),
                1 => bytes.insert(at, b"\r\n\t #%*$<>-09AZ\xFC"[next(16)]),
                2 if at < bytes.len() => drop(bytes.remove(at)),
                _ if at < bytes.len() => bytes[at] = b"\r\n\t #%*$<>-09AZ\xFC"[next(16)],
                _ => {}
            }
        }
        let (status, text) = told(&delivery, true);
        assert_eq!(status != 1, text.starts_with("accepted"));
        assert!(status != 1 || text.contains("\n  here: "), "{}", text);
        assert!(!text.contains("here: \n") && !text.contains("mend: \n"), "{}", text);
        // no row of a screen is wider than a terminal
        assert!(text.lines().filter(|line| line.get(7..9) == Some(" |")).all(|line| line.len() <= 80), "{}", text);
        // the program's own reading finds first what the loader has answered, and nothing where it accepts
        let first = Survey::of(&delivery).found.first().copied();
        assert_eq!(first, loaded(&delivery).err(), "{}", text);
    }
    let none = Answer { number: 60, file: 0, line: 0, column: 0, needed: 0 };
    let week = trial_week();
    assert!(screen(&week, &none, &tell(&week, &none)).starts_with("refused 60 file 0 line 0 column 0\n"));
}

/// A delivery written back clean: into a new directory, never over another; the same timetable.
#[test]
fn clean() {
    let place = std::env::temp_dir().join(format!("desk-clean-{}", std::process::id()));
    let (from, out) = (place.join("from"), place.join("out"));
    std::fs::create_dir_all(&from).unwrap();
    let mut delivery = trial_week();
    delivery.files[FPLAN as usize - 1] = plan(&[
        "% a remark",
        "*Z 00042 FERRY_",
        "*A FR",
        "*G BAT",
        "*A VE                 000001",
        ROUTE[0],
        ROUTE[1],
        ROUTE[2],
        ROUTE[3],
    ]);
    for (file, bytes) in File::ALL.iter().zip(&delivery.files) {
        std::fs::write(from.join(file.name()), bytes).unwrap();
    }
    let (status, text) = super::clean::run(&from, &out, &options());
    assert_eq!(status, 0, "{}", text);
    assert!(
        text.starts_with("accepted days 7 ") && text.contains("FPLAN of 8 lines, 480 bytes (it had 540)"),
        "{}",
        text
    );
    assert!(
        text.ends_with("the same timetable but for the opening lines; written again: the same bytes\n"),
        "{}",
        text
    );
    let written = std::fs::read_to_string(out.join("FPLAN")).unwrap();
    let expected = [
        "*Z 00042 FERRY_       000 000",
        "*G BAT      #0      #3",
        "*A VE      #0      #3 000001",
        "*A FR      #0      #3 000000",
        "1000011                              00800 00042 FERRY_",
        "1000022                       00810  00812 00042 FERRY_",
        "1000033                       00830  00835 00042 FERRY_",
        "1000022                       00855        00042 FERRY_",
    ];
    assert_eq!(written.into_bytes(), plan(&expected));
    // not over another delivery, and nothing of a refused one
    let (status, text) = super::clean::run(&from, &out, &options());
    assert!(status == 2 && text.ends_with("the directory is not empty\n"), "{}", text);
    std::fs::write(from.join("FPLAN"), b"*X\n").unwrap();
    let (status, text) = super::clean::run(&from, &place.join("none"), &options());
    assert!(status == 1 && text.starts_with("refused 12 file 5 line 1") && !place.join("none").exists(), "{}", text);
    std::fs::remove_dir_all(&place).unwrap();
}
