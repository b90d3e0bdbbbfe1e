//! Deliveries that are broken in the ways that happen, each made from one good delivery. `broken.txt` holds their screens. Each is then mended by its screens alone: what a screen says to write
//! or to move is done to the letter, and only where it says to find something out is that looked up in the good delivery. What comes out is accepted and says what the good one says, or a
//! screen had a `look:`.

use super::{bits, options, plan, titled, with_file};
use crate::lines::{lines, Delivery, BAHNHOF, BITFELD, ECKDATEN, FPLAN, UMSTEIGB, ZUGART};
use crate::moved::put_right;
use crate::report::{self, loaded, outcome, Options, Outcome};

const BROKEN: &str = include_str!("broken.txt");

/// Three services and one on call, on the trial week.
const PLAN: [&str; 28] = [
    "*Z 00042 FERRY_       003 020",
    "*G BAT",
    "*A VE                 000001",
    "*A FA 1000022 1000033 000002  00812     #0",
    "1000011 Quay A                       00800",
    "1000022 Quay B                00810  00812",
    "1000033 Quay C                00830  00835",
    "1000022 Quay B                00855",
    "*Z 00043 FERRY_",
    "*G BAT         1000033",
    "*G NAV 1000033     #3",
    "*A VE         1000022 000000            #0",
    "*A VE 1000022         000010",
    "1000011                              00900",
    "1000022                       00910 -00912",
    "1000033                       00930  00935 00143 NAVIS_",
    "1000044                       02355",
    "*T 00100 NAVIS_ 0060 0900",
    "*G IC",
    "*A VE",
    "1000044                              01000              X",
    "1000011                       01100",
    "*Z 00044 NAVIS_",
    "*G NAV 1000011 1000044",
    "*A VE 1000011 1000044 000002",
    "1000011                              02350",
    "1000033                      -02400  02401",
    "1000044                       02430",
];

pub fn good() -> Delivery {
    let field = |number: &str, digits: &str| bits(number, digits) + "\n";
    let mut delivery = with_file(FPLAN, &plan(&PLAN));
    delivery.files[BITFELD as usize - 1] =
        [field("000001", "FE6"), field("000002", "C1E"), field("000010", "C86")].concat().into_bytes();
    delivery.files[BAHNHOF as usize - 1] = b"1000011     Quay A$Quai A$<f>\n1000022     Harbour Station$Hafenbahnhof$<d>Gare du Port$<f>\n1000033     Quay C\n1000044     Mill\n".to_vec();
    delivery.files[UMSTEIGB as usize - 1] = b"9999999  2  3\n1000022  4 12\n1000033 10 15 Quay C\n".to_vec();
    delivery.files[ZUGART as usize - 1] =
        b"BAT  4   0 BAT      0 B\nIC   1   0 IC       0 N\nNAV 12   2 NAV      1 F Navette\n".to_vec();
    delivery
}

/// Applies a change to a file.
fn file(of: u32, change: impl FnOnce(Vec<u8>) -> Vec<u8>) -> Delivery {
    let mut delivery = good();
    let place = &mut delivery.files[of as usize - 1];
    *place = change(std::mem::take(place));
    delivery
}

fn joined(lines: &[Vec<u8>]) -> Vec<u8> {
    lines.iter().flat_map(|line| [&line[..], b"\n"].concat()).collect()
}

/// Applies a change to the lines of a file.
fn all(of: u32, change: impl FnOnce(&mut Vec<Vec<u8>>)) -> Delivery {
    file(of, |bytes| {
        let mut all: Vec<Vec<u8>> = lines(&bytes).map(<[u8]>::to_vec).collect();
        change(&mut all);
        joined(&all)
    })
}

/// Applies a change to one line, counted from 1.
fn one(of: u32, at: usize, change: impl FnOnce(&mut Vec<u8>)) -> Delivery {
    all(of, |lines| change(&mut lines[at - 1]))
}

/// Writes a text into a line from a column on.
fn put(of: u32, at: usize, column: usize, text: &str) -> Delivery {
    one(of, at, |line| {
        line.resize(line.len().max(column - 1 + text.len()), b' ');
        line[column - 1..column - 1 + text.len()].copy_from_slice(text.as_bytes());
    })
}

/// Another line in the place of one.
fn line(of: u32, at: usize, text: &str) -> Delivery {
    one(of, at, |line| *line = text.as_bytes().to_vec())
}

/// Blanks put in before a column.
fn pushed(of: u32, at: usize, column: usize, count: usize) -> Delivery {
    one(of, at, |line| drop(line.splice(column - 1..column - 1, vec![b' '; count])))
}

/// Columns moved alone, to the right or, below 0, to the left.
fn shifted(of: u32, at: usize, (first, last): (usize, usize), by: isize) -> Delivery {
    one(of, at, |line| *line = put_right(line, first, Some(last), -by).expect("there is room"))
}

fn replaced(bytes: &[u8], from: u8, to: &[u8]) -> Vec<u8> {
    bytes.iter().flat_map(|byte| if *byte == from { to.to_vec() } else { vec![*byte] }).collect()
}

fn utf16(bytes: &[u8]) -> Vec<u8> {
    [vec![0xFF, 0xFE], bytes.iter().flat_map(|byte| [*byte, 0]).collect()].concat()
}

type Case = (String, Delivery);

fn moved_fields(cases: &mut Vec<Case>) {
    let mut moved = |name: &str, of: u32, at: usize, columns: (usize, usize), by: isize| {
        let side = if by > 0 { "right" } else { "left" };
        cases.push((format!("{}, moved by {} to the {}", name, by.unsigned_abs(), side), shifted(of, at, columns, by)));
    };
    for by in [1, -1] {
        moved("the bit field of *A VE", FPLAN, 3, (23, 28), by);
        moved("an arrival", FPLAN, 6, (31, 35), by);
        moved("a departure", FPLAN, 6, (38, 42), by);
        moved("a class", ZUGART, 3, (5, 6), by);
        moved("the second time", UMSTEIGB, 2, (12, 13), by);
        moved("repeats and offset", FPLAN, 1, (23, 29), by);
        moved("the running time", FPLAN, 18, (17, 20), by);
    }
    for by in [2, 3] {
        moved("the bit field of *A VE", FPLAN, 3, (23, 28), by);
        moved("a departure", FPLAN, 6, (38, 42), by);
    }
    moved("the bit field of *A VE", FPLAN, 3, (23, 28), -2);
    moved("the bit field of *A VE", FPLAN, 3, (23, 28), 7);
    moved("an arrival", FPLAN, 6, (31, 35), -3);
    moved("an arrival", FPLAN, 6, (31, 35), -7);
    moved("an administration", FPLAN, 9, (10, 15), 1);
    moved("a from", FPLAN, 24, (8, 14), 1);
    moved("a to", FPLAN, 24, (16, 22), 1);
    moved("a detail by time", FPLAN, 4, (31, 35), 1);
    moved("a detail by #", FPLAN, 12, (41, 42), 1);
    moved("a code of *A", FPLAN, 13, (4, 5), 1);
    moved("a category", FPLAN, 2, (4, 6), 1);
    moved("a change of number", FPLAN, 16, (44, 48), -1);
    moved("a change of administration", FPLAN, 16, (50, 55), 1);
    moved("the X", FPLAN, 21, (57, 57), -1);
    moved("a time that forbids", FPLAN, 15, (37, 42), 1);
    moved("a density", FPLAN, 18, (22, 25), 1);
    moved("a name", BAHNHOF, 3, (13, 18), -1);
    moved("a name", BAHNHOF, 3, (13, 18), 1);
    moved("the hex digits", BITFELD, 1, (8, 103), 1);
    moved("an output", ZUGART, 3, (10, 10), 1);
    moved("a supplement", ZUGART, 1, (21, 21), -1);
    moved("a flag", ZUGART, 1, (23, 23), 1);
    for (name, of, at, column) in [
        ("the bit field", FPLAN, 3, 23),
        ("a schedule line's times", FPLAN, 6, 30),
        ("a departure", FPLAN, 7, 37),
        ("a *Z's repeats", FPLAN, 1, 23),
        ("a *Z's administration", FPLAN, 1, 10),
        ("a *G's to", FPLAN, 24, 16),
        ("the code of an *A", FPLAN, 4, 4),
        ("a record's times", UMSTEIGB, 3, 9),
        ("a category's output", ZUGART, 1, 10),
        ("a date", ECKDATEN, 2, 1),
        ("a record", UMSTEIGB, 2, 1),
        ("a schedule line", FPLAN, 7, 1),
        ("a *G", FPLAN, 10, 1),
        ("a bit field's line", BITFELD, 2, 1),
    ] {
        for count in [1, 2] {
            cases.push((format!("all from {} on, moved by {}", name, count), pushed(of, at, column, count)));
        }
    }
}

fn cut_files(cases: &mut Vec<Case>) {
    let mut cut = |name: &str, of: u32, bytes: usize| {
        cases.push((
            format!("{} cut, {}", crate::lines::file_name(of), name),
            file(of, |file| file[..file.len() - bytes].to_vec()),
        ));
    };
    cut("only its last line end", ECKDATEN, 1);
    cut("inside the last date", ECKDATEN, 13);
    cut("only its last line end", BITFELD, 1);
    cut("inside the last line", BITFELD, 40);
    cut("only its last line end", BAHNHOF, 1);
    cut("inside a name", BAHNHOF, 3);
    cut("inside a number", BAHNHOF, 14);
    cut("inside the last line", UMSTEIGB, 20);
    cut("only its last line end", UMSTEIGB, 1);
    cut("inside a remark", UMSTEIGB, 4);
    cut("inside the last line", ZUGART, 20);
    cut("only its last line end", FPLAN, 1);
    cut("before the last \"%\"", FPLAN, 2);
    cut("inside the last call", FPLAN, 30);
    cut("inside the last call but one", FPLAN, 90);
    cut("inside a *G", FPLAN, 60 * 5 - 6);
    cut("inside a *A VE, before its bit field", FPLAN, 60 * 4 - 15);
    let short = |at: usize, length: usize| one(FPLAN, at, |line| line.truncate(length));
    for (name, at, length) in [
        ("a *A VE", 3, 5),
        ("a *Z", 1, 15),
        ("a *G", 11, 14),
        ("a call", 6, 35),
        ("a call", 6, 40),
        ("a *A VE", 25, 24),
    ] {
        cases.push((format!("{} cut after column {}", name, length), short(at, length)));
    }
}

fn saved_otherwise(cases: &mut Vec<Case>) {
    for of in [ECKDATEN, BITFELD, BAHNHOF, UMSTEIGB, ZUGART, FPLAN] {
        let name = crate::lines::file_name(of);
        cases
            .push((format!("{} with a byte order mark", name), file(of, |file| [b"\xEF\xBB\xBF", &file[..]].concat())));
    }
    cases.push(("BAHNHOF in UTF-16".into(), file(BAHNHOF, |file| utf16(&file))));
    cases.push(("FPLAN in UTF-16".into(), file(FPLAN, |file| utf16(&file))));
    for of in [ECKDATEN, BITFELD, BAHNHOF, UMSTEIGB, FPLAN] {
        let name = crate::lines::file_name(of);
        cases.push((format!("{}, CR alone", name), file(of, |file| replaced(&file, b'\n', b"\r"))));
    }
    let name = |text: &str| format!("1000022 {:<21} 00810  00812                %", text);
    cases.push(("a letter of two bytes in a call".into(), line(FPLAN, 6, &name("M\u{fc}hle"))));
    cases.push(("two letters of two bytes in a call".into(), line(FPLAN, 6, &name("M\u{fc}hlenstra\u{df}e"))));
    cases.push((
        "a tab before the times of a call".into(),
        line(FPLAN, 6, &format!("1000022\t{:29}00812                %", "                00810  ")),
    ));
    cases.push(("a tab in UMSTEIGB".into(), line(UMSTEIGB, 2, "1000022\t 4 12")));
    cases.push(("tabs in UMSTEIGB".into(), line(UMSTEIGB, 2, "1000022\t\t4 12")));
    cases.push(("a byte 1A at the end of FPLAN".into(), file(FPLAN, |file| [&file[..], b"\x1A"].concat())));
    cases.push(("a byte 1A at the end of BAHNHOF".into(), file(BAHNHOF, |file| [&file[..], b"\x1A"].concat())));
    cases.push(("a blank that does not break, in a *Z".into(), one(FPLAN, 1, |line| line[8] = 0xA0)));
    cases.push(("a byte 7 in a name".into(), one(BAHNHOF, 3, |line| line[16] = 7)));
    cases.push(("two CR at the end of a stop".into(), one(BAHNHOF, 1, |line| line.extend(b"\r\r"))));
    cases.push(("a lone CR between two stops".into(), file(BAHNHOF, |file| replaced_first(&file, b'\n', b"\r"))));
}

fn replaced_first(bytes: &[u8], from: u8, to: &[u8]) -> Vec<u8> {
    let at = bytes.iter().position(|byte| *byte == from).unwrap();
    [&bytes[..at], to, &bytes[at + 1..]].concat()
}

fn other_exporters(cases: &mut Vec<Case>) {
    let stripped = |lines: &mut Vec<Vec<u8>>| {
        for line in lines.iter_mut() {
            line.pop();
            while line.last() == Some(&b' ') {
                line.pop();
            }
        }
    };
    cases.push(("\"%\" stripped".into(), all(FPLAN, stripped)));
    cases.push(("\"%\" two columns too far left".into(), one(FPLAN, 6, |line| drop(line.drain(50..52)))));
    cases.push((
        "small hex digits".into(),
        all(BITFELD, |lines| lines.iter_mut().for_each(|line| line.make_ascii_lowercase())),
    ));
    cases.push(("zeros of a bit field dropped".into(), one(BITFELD, 1, |line| line.truncate(10))));
    cases.push(("zeros of a bit field dropped, and more".into(), one(BITFELD, 1, |line| line.truncate(9))));
    cases.push(("a bit field of 100 digits".into(), one(BITFELD, 1, |line| line.extend(b"0000"))));
    cases.push(("a bit field of 100 digits, not all 0".into(), one(BITFELD, 1, |line| line.extend(b"000F"))));
    cases.push(("a remark behind a bit field".into(), one(BITFELD, 1, |line| line.extend(b" Mo-Fr"))));
    cases.push(("four digits in front of a bit field".into(), one(BITFELD, 1, |line| drop(line.drain(..2)))));
    cases.push((
        "a bit field's number without zeros".into(),
        one(FPLAN, 3, |line| line[22..28].copy_from_slice(b"    1 ")),
    ));
    cases.push(("a bit field's number at the left".into(), put(FPLAN, 13, 23, "10    ")));
    cases.push(("a bit field's number that lost a digit".into(), put(FPLAN, 13, 23, "00001 ")));
    cases.push(("a bit field of zeros that lost a digit".into(), put(FPLAN, 12, 23, "00000 ")));
    cases.push(("a service's number without zeros".into(), put(FPLAN, 9, 4, "43   ")));
    cases.push(("an administration with a blank".into(), put(FPLAN, 1, 10, "FERRY ")));
    cases.push(("repeats without zeros".into(), put(FPLAN, 1, 23, "  3")));
    cases.push(("an offset without zeros".into(), put(FPLAN, 1, 27, " 20")));
    cases.push(("no offset".into(), put(FPLAN, 1, 27, "   ")));
    cases.push(("no repeats".into(), put(FPLAN, 1, 23, "   ")));
    cases.push(("an offset of 000".into(), put(FPLAN, 1, 27, "000")));
    cases.push(("a negative density".into(), put(FPLAN, 18, 22, "-0900")));
    cases.push(("a time of four digits".into(), put(FPLAN, 6, 30, "  0810")));
    cases.push(("a time with a colon".into(), put(FPLAN, 6, 37, " 08:12")));
    cases.push(("minutes over 59".into(), put(FPLAN, 6, 37, " 00872")));
    cases.push(("a time with +".into(), put(FPLAN, 15, 37, "+00912")));
    cases.push(("a small x".into(), put(FPLAN, 21, 57, "x")));
    cases.push(("a small kind".into(), put(FPLAN, 9, 1, "*z")));
    cases.push(("a small *g".into(), put(FPLAN, 10, 1, "*g")));
    cases.push(("a small ve".into(), put(FPLAN, 3, 4, "ve")));
    cases.push(("a small category".into(), put(FPLAN, 2, 4, "bat")));
    cases.push(("no blank after a kind".into(), one(FPLAN, 2, |line| drop(line.drain(2..3)))));
    cases.push((
        "other lines of the standard".into(),
        all(FPLAN, |lines| lines.insert(3, plan(&["*I ZN                 000001"])[..59].to_vec())),
    ));
    cases.push(("ZUGART without output and supplement".into(), line(ZUGART, 2, "IC   1     IC         N")));
    cases.push(("ZUGART without supplement".into(), line(ZUGART, 1, "BAT  4   0 BAT")));
    cases.push((
        "ZUGART with lines of 5.5.1".into(),
        all(ZUGART, |lines| lines.extend([b"<text>".to_vec(), b"class00 Boats".to_vec()])),
    ));
    cases.push(("ZUGART without lines".into(), file(ZUGART, |_| Vec::new())));
    cases.push(("BAHNHOF without lines".into(), file(BAHNHOF, |_| Vec::new())));
    cases.push(("BITFELD without lines".into(), file(BITFELD, |_| Vec::new())));
    cases.push(("UMSTEIGB without lines".into(), file(UMSTEIGB, |_| Vec::new())));
    cases.push(("FPLAN without lines".into(), file(FPLAN, |_| Vec::new())));
    cases.push(("a class at the left edge".into(), put(ZUGART, 1, 5, "4 ")));
    cases.push(("a class of 14".into(), put(ZUGART, 3, 5, "14")));
    cases.push(("a small flag".into(), put(ZUGART, 3, 23, "f")));
    cases.push(("a tariff group alone".into(), put(ZUGART, 2, 8, "A")));
    cases.push(("61 minutes".into(), put(UMSTEIGB, 3, 9, "61")));
    cases.push(("no second time".into(), line(UMSTEIGB, 2, "1000022  4")));
    cases.push(("both times at the left edge".into(), line(UMSTEIGB, 1, "9999999 2 3")));
    cases.push(("an indented *Z, its \"%\" in place".into(), line(FPLAN, 9, &format!("{:58}%", "  *Z 00043 FERRY_"))));
}

fn dates(cases: &mut Vec<Case>) {
    for (name, at, date) in [
        ("one digit for the day", 1, "1.12.2025"),
        ("the year first", 1, "2025-12-01"),
        ("two digits for the year", 2, "07.12.25"),
        ("hyphens", 2, "07-12-2025"),
        ("strokes", 2, "12/07/2025"),
        ("no such month", 2, "07.13.2025"),
        ("no such day", 2, "31.11.2025"),
        ("the last day before the first", 2, "07.11.2025"),
        ("the year wrong", 2, "07.12.2035"),
        ("the period a day shorter", 2, "06.12.2025"),
        ("the period a week longer", 2, "14.12.2025"),
        ("both dates of another year", 1, "01.12.2024"),
    ] {
        cases.push((format!("a date, {}", name), line(ECKDATEN, at, date)));
    }
    cases.push(("ECKDATEN without a name".into(), all(ECKDATEN, |lines| drop(lines.pop()))));
    cases.push(("ECKDATEN with a blank line".into(), all(ECKDATEN, |lines| lines.push(Vec::new()))));
    cases.push(("ECKDATEN with a fourth line".into(), all(ECKDATEN, |lines| lines.push(b"made at night".to_vec()))));
    cases.push(("ECKDATEN begins with a blank line".into(), all(ECKDATEN, |lines| lines.insert(0, Vec::new()))));
    cases.push(("a bit of the frame gone".into(), put(BITFELD, 1, 8, "FE4")));
    cases.push(("a bit field a day late".into(), put(BITFELD, 1, 8, "FF3")));
}

fn lines_wrong(cases: &mut Vec<Case>) {
    let gone = |of: u32, at: usize| all(of, |lines| drop(lines.remove(at - 1)));
    for (name, of, at) in [
        ("a *Z", FPLAN, 9),
        ("the first *Z", FPLAN, 1),
        ("a *G", FPLAN, 10),
        ("the only *G", FPLAN, 19),
        ("a *A VE", FPLAN, 3),
        ("the first call", FPLAN, 5),
        ("the last call", FPLAN, 8),
        ("a stop", BAHNHOF, 4),
        ("a bit field", BITFELD, 3),
        ("a category", ZUGART, 3),
        ("the first record", UMSTEIGB, 1),
    ] {
        cases.push((format!("{} is gone", name), gone(of, at)));
    }
    let twice = |of: u32, at: usize| all(of, |lines| lines.insert(at, lines[at - 1].clone()));
    for (name, of, at) in [
        ("a bit field", BITFELD, 2),
        ("a stop", BAHNHOF, 2),
        ("a record", UMSTEIGB, 3),
        ("a category", ZUGART, 1),
        ("a *G", FPLAN, 2),
        ("a call", FPLAN, 6),
        ("a last call", FPLAN, 8),
    ] {
        cases.push((format!("{} twice", name), twice(of, at)));
    }
    cases.push(("a service twice".into(), all(FPLAN, |lines| lines.extend_from_within(22..))));
    cases.push(("a stop with two names".into(), all(BAHNHOF, |lines| lines.push(b"1000033     Kai C".to_vec()))));
    cases.push(("a record with other minutes".into(), all(UMSTEIGB, |lines| lines.push(b"1000033  5  5".to_vec()))));
    cases.push(("the first record last".into(), all(UMSTEIGB, |lines| lines.rotate_left(1))));
    let broken_at = |of: u32, at: usize, column: usize| {
        all(of, |lines| {
            let rest = lines[at - 1].split_off(column);
            lines.insert(at, rest);
        })
    };
    cases.push(("a *A broken in two".into(), broken_at(FPLAN, 3, 20)));
    cases.push(("a call broken in two".into(), broken_at(FPLAN, 6, 33)));
    cases.push(("a bit field broken in two".into(), broken_at(BITFELD, 2, 50)));
    cases.push(("a name broken in two".into(), broken_at(BAHNHOF, 2, 20)));
    let glued = |of: u32, at: usize| {
        all(of, |lines| {
            let next = lines.remove(at);
            lines[at - 1].extend(next);
        })
    };
    for (name, of, at) in [
        ("a *G behind a *Z", FPLAN, 1),
        ("a call behind a call", FPLAN, 5),
        ("a call behind a call that may go", FPLAN, 6),
        ("a *Z behind a call", FPLAN, 8),
        ("a bit field behind another", BITFELD, 1),
        ("a record behind another", UMSTEIGB, 1),
        ("a stop behind another", BAHNHOF, 3),
        ("a category behind another", ZUGART, 1),
    ] {
        cases.push((format!("a line end gone: {}", name), glued(of, at)));
    }
}

fn wrong_data(cases: &mut Vec<Case>) {
    cases.push(("a stop mistyped in a call".into(), put(FPLAN, 6, 1, "1000032")));
    cases.push(("a stop of six digits".into(), put(FPLAN, 6, 1, "100022 ")));
    cases.push(("a stop mistyped in UMSTEIGB".into(), put(UMSTEIGB, 3, 1, "1000034")));
    cases.push(("a stop that ends with 00000".into(), put(BAHNHOF, 4, 1, "1000000")));
    cases.push(("a bit field mistyped".into(), put(FPLAN, 3, 23, "000003")));
    cases.push(("a bit field 000000 that is listed".into(), put(BITFELD, 1, 1, "000000")));
    cases.push(("a category mistyped".into(), put(FPLAN, 2, 4, "BAR")));
    cases.push(("a stop commented out".into(), one(BAHNHOF, 3, |line| line.insert(0, b'%'))));
    cases.push(("after midnight from 0 on".into(), put(FPLAN, 28, 31, "00030")));
    cases.push(("an arrival that is missing".into(), put(FPLAN, 6, 30, "      ")));
    cases.push(("a range that ends before it begins".into(), put(FPLAN, 24, 8, "1000044 1000011")));
    cases.push(("a range's stop that is not called at".into(), put(FPLAN, 25, 7, "1000022")));
    cases.push(("a range's # too large".into(), put(FPLAN, 11, 20, "#4")));
    cases.push(("a range that leaves a leg out".into(), put(FPLAN, 11, 20, "#2")));
    cases.push(("days on two stretches".into(), put(FPLAN, 12, 15, "1000033")));
    cases.push(("a pattern without \"$\"".into(), line(BAHNHOF, 1, "1000011     Quay A$Quai A<f>")));
    cases.push(("a \"$\" at the end of a name".into(), line(BAHNHOF, 3, "1000033     Quay C$")));
    cases.push((
        "a name cut at column 62, its last pattern with it".into(),
        line(BAHNHOF, 2, "1000022     Harbour Central Station$Hafenbahnhof$<d>Gare du Port$<f>"),
    ));
    cases.push((
        "a name that goes on behind column 62".into(),
        line(BAHNHOF, 2, "1000022     Harbour Station$Hafenbahnhof am grossen Hafen$<d>Gare du Port$<f>"),
    ));
    cases.push(("a small word before the number".into(), put(BAHNHOF, 3, 1, "x00033 ")));
    cases.push(("a letter in columns without a field".into(), put(FPLAN, 1, 20, "x")));
    cases.push(("digits in columns without a field".into(), put(FPLAN, 9, 18, "017")));
}

/// All, by name.
pub fn cases() -> Vec<Case> {
    let mut cases = Vec::new();
    moved_fields(&mut cases);
    cut_files(&mut cases);
    saved_otherwise(&mut cases);
    other_exporters(&mut cases);
    dates(&mut cases);
    lines_wrong(&mut cases);
    wrong_data(&mut cases);
    cases
}

/// What a screen's mend says to do to a file's lines; `None` where it says to find something out.
fn done(mend: &str, at: usize, lines: &mut Vec<Vec<u8>>) -> Option<()> {
    let words: Vec<&str> = mend.split([' ', ';', ':']).collect();
    let number = |word: &str| words.iter().skip_while(|it| **it != word).nth(1).and_then(|it| it.parse::<usize>().ok());
    let span = |word: &str| {
        let (first, last) = words.iter().skip_while(|it| **it != word).nth(1)?.split_once('-')?;
        Some((first.parse::<usize>().ok()?, last.parse::<usize>().ok()?))
    };
    let quoted = || mend.split('`').nth(1).map(|text| text.as_bytes().to_vec());
    let by = || number("by").map(|by| if mend.contains("to the left") { by as isize } else { -(by as isize) });
    let moved = |line: &[u8], first: usize, last: Option<usize>, by: isize| {
        let there = || panic!("{}: no room in `{}`", mend, String::from_utf8_lossy(line));
        put_right(line, first, last, by).unwrap_or_else(there)
    };
    let line = number("line").filter(|_| mend.contains("of line")).unwrap_or(at).wrapping_sub(1);
    if mend.starts_with("move column") && mend.ends_with("the rest of the line stays") {
        let (first, last) = span("columns").or_else(|| number("column").map(|at| (at, at)))?;
        lines[line] = moved(&lines[line], first, Some(last), by()?);
    } else if mend.starts_with("move all from column ") {
        lines[line] = moved(&lines[line], number("column")?, None, by()?);
    } else if mend.starts_with("move line ") {
        let moved = lines.remove(number("line")? - 1);
        lines.insert(at - 1, moved);
    } else if mend.starts_with("write `") {
        let (text, first) = (quoted()?, span("columns").map(|span| span.0).or_else(|| number("column"))?);
        let end = first - 1 + text.len();
        let width = lines[line].len().max(end);
        lines[line].resize(width, b' ');
        lines[line].splice(first - 1..end, text);
    } else if mend.starts_with("write 0 in each of columns ") {
        let (first, last) = span("columns")?;
        lines[line].truncate(first - 1);
        lines[line].resize(last, b'0');
    } else if mend == "write the hex digits in capitals" {
        lines[line].make_ascii_uppercase();
    } else if mend.starts_with("write ") && mend.ends_with("in the place of each tab of the line") {
        lines[line] = replaced(&lines[line], b'\t', &b" ".repeat(number("write")?));
    } else if mend.starts_with("put \"%\" in column 59 of each line") {
        for line in lines.iter_mut().filter(|line| !line.contains(&b'%')) {
            line.resize(58, b' ');
            line.push(b'%');
        }
    } else if mend.starts_with("put a \"%\" in column 1") {
        lines[line].insert(0, b'%');
    } else if mend.starts_with("put `") {
        let (text, place) = (quoted()?, number("column")? - 1);
        lines[line].splice(place..place, text);
    } else if mend.starts_with("take out all from column ") {
        lines[line].truncate(number("column")? - 1);
    } else if mend.starts_with("take out column ") {
        lines[line].remove(number("column")? - 1);
    } else if mend.starts_with("take ") {
        let (count, place) = (number("take")?, number("column")? - 1);
        lines[line].drain(place..place + count);
    } else if mend.starts_with("remove line ") {
        lines.remove(number("line")? - 1);
    } else if mend.starts_with("join lines ") {
        let next = lines.remove(number("lines")?);
        lines[number("lines")? - 1].extend(next);
    } else if mend.starts_with("break line ") {
        let broken = number("line")? - 1;
        let rest = lines[broken].split_off(number("column")?);
        lines.insert(broken + 1, rest);
    } else if mend.starts_with("add line 3") {
        lines.push(Vec::new());
    } else {
        return None;
    }
    Some(())
}

/// A file saved as a screen says.
fn saved(bytes: &[u8]) -> Vec<u8> {
    let bytes: Vec<u8> = match bytes {
        [0xFF, 0xFE, rest @ ..] => rest.iter().copied().filter(|byte| *byte != 0).collect(),
        [0xEF, 0xBB, 0xBF, rest @ ..] => rest.to_vec(),
        _ => bytes.to_vec(),
    };
    if bytes.contains(&b'\n') {
        bytes
    } else {
        replaced(&bytes, b'\r', b"\n")
    }
}

/// What is found out: the line as it is in the good delivery, if both have as many; else the file; else that of another file that the screen names.
fn found_out(delivery: &mut Delivery, of: u32, at: usize) {
    let good = good();
    let [own, meant] =
        [&*delivery, &good].map(|it| -> Vec<Vec<u8>> { lines(it.file(of)).map(<[u8]>::to_vec).collect() });
    let place = (of as usize).saturating_sub(1);
    if own.len() == meant.len() && at > 0 && own.get(at - 1) != meant.get(at - 1) {
        let mut mended = own;
        mended[at - 1] = meant[at - 1].clone();
        delivery.files[place] = joined(&mended);
    } else if delivery.files[place] != good.files[place] {
        delivery.files[place] = good.files[place].clone();
    } else {
        *delivery = good;
    }
}

/// How a delivery was mended.
#[derive(Debug, Default, PartialEq, Eq)]
struct Mended {
    screens: usize,
    found_out: usize,
    looks: usize,
    same: bool,
}

/// Mends a delivery by its screens until it is accepted.
fn obeyed(broken: &Delivery) -> Mended {
    let (mut delivery, mut mended) = (broken.clone(), Mended::default());
    loop {
        let refused = match outcome(&delivery, &options()) {
            Outcome::Refused(refused) => refused,
            Outcome::Accepted(accepted) => {
                mended.looks += accepted.looks.len();
                mended.same = says_the_same(&delivery);
                return mended;
            }
            Outcome::Unread(_) => unreachable!("nothing is read"),
        };
        mended.screens += 1;
        mended.looks += refused.told.looks.len();
        assert!(mended.screens < 40, "{}", refused.told.mend);
        let (of, at, mend) = (refused.answer.file, refused.answer.line as usize, &refused.told.mend[..]);
        if mend.starts_with("save the file ") {
            let named = |of: &u32| refused.told.looks[0].starts_with(&format!("{}: ", crate::lines::file_name(*of)));
            let of = (1..=6).find(named).unwrap_or(of);
            delivery.files[of as usize - 1] = saved(delivery.file(of));
            continue;
        }
        let mut own: Vec<Vec<u8>> = lines(delivery.file(of)).map(<[u8]>::to_vec).collect();
        match done(mend, at, &mut own) {
            Some(()) => delivery.files[of as usize - 1] = joined(&own),
            None => {
                mended.found_out += 1;
                found_out(&mut delivery, of, at);
            }
        }
    }
}

/// Whether an accepted delivery says what the good one says: period, days, stops, names, minutes, classes and services.
fn says_the_same(delivery: &Delivery) -> bool {
    let accepted = |delivery: &Delivery| match outcome(delivery, &options()) {
        Outcome::Accepted(accepted) => accepted,
        _ => panic!("it is refused"),
    };
    let (good, mended) = (accepted(&good()), accepted(delivery));
    let plan = |words: &[u32]| estelunya_planner::by_number::Table::new(words).fplan().unwrap();
    good.counts() == mended.counts()
        && good.period() == mended.period()
        && plan(&good.words) == plan(&mended.words)
        && crate::compare::changes([&self::good(), delivery], [&good, &mended]).is_empty()
}

fn screens() -> String {
    let told = |(name, broken): &Case| {
        let Mended { screens, found_out, looks, same } = obeyed(broken);
        let end = format!(
            "-- obeyed: {} screens, {} to find out, {} to look at: {}",
            screens,
            found_out,
            looks,
            if same { "the same timetable" } else { "another timetable" }
        );
        titled(name, &format!("{}{}\n", report::told(broken, &options()).1, end))
    };
    cases().iter().map(told).collect()
}

/// The good delivery is accepted, and nothing in it is odd.
#[test]
fn unbroken() {
    assert!(says_the_same(&good()));
    assert_eq!(report::told(&good(), &options()).0, 0, "{}", report::told(&good(), &options()).1);
}

/// Every broken delivery's screen is as it was read. To renew the file after a change that is meant: DESK_BROKEN=FILE writes what is printed now.
#[test]
fn broken_screens() {
    let now = screens();
    if let Some(path) = std::env::var_os("DESK_BROKEN") {
        std::fs::write(path, &now).unwrap();
    }
    super::same_lines(BROKEN, &now);
}

/// Who obeys the screens changes no data unawares.
#[test]
fn obeying_changes_nothing() {
    let cases = cases();
    assert!(cases.len() >= 140, "{}", cases.len());
    let mut blind = 0;
    for (name, broken) in &cases {
        let mended = obeyed(broken);
        assert!(mended.same || mended.looks > 0, "{}: {:?}", name, mended);
        assert!(mended.screens > 0 || mended.looks > 0, "{} is accepted as if nothing were", name);
        blind += usize::from(mended.found_out == 0);
    }
    assert!(blind * 2 > cases.len(), "{} of {} are mended to the letter", blind, cases.len());
}

/// What else is said of a broken delivery by `--all` begins with what the loader answers.
#[test]
fn survey_begins_with_the_answer() {
    for (name, broken) in cases() {
        let first = crate::survey::Survey::of(&broken).found.first().copied();
        assert_eq!(first, loaded(&broken).err(), "{}", name);
        report::told(&broken, &Options { all: true, most: Some(usize::MAX), ..options() });
    }
}

/// Bytes put in, taken out, replaced and cut off by chance: what is refused and then mended by its screens is the same timetable, or somebody was told to look.
#[test]
fn obeying_by_chance() {
    let mut seed = 3_u64;
    let mut next = move |below: usize| {
        seed = seed.wrapping_mul(6_364_136_223_846_793_005).wrapping_add(1_442_695_040_888_963_407);
        (seed >> 33) as usize % below
    };
    let count = std::env::var("DESK_CASES").map_or(300, |count| count.parse().unwrap());
    let mut other = Vec::new();
    for _ in 0..count {
        let mut delivery = good();
        let place = [0, 1, 2, 3, 4, 4, 4, 4, 4, 5][next(10)];
        let bytes = &mut delivery.files[place];
        let at = next(bytes.len());
        let end = (at + 1 + next(20)).min(bytes.len());
        match next(10) {
            0 | 1 => drop(bytes.drain(at..at + 1)),
            2 | 3 => bytes[at] = b" 0#-9A%\n"[next(8)],
            4 => drop(bytes.drain(at..end)),
            5 => bytes.extend_from_within(at..end),
            6 => bytes.truncate(at),
            _ => bytes.insert(at, b"   0#\n"[next(6)]),
        }
        let mended = obeyed(&delivery);
        if mended.screens > 0 && !mended.same && mended.looks == 0 {
            other.push(report::told(&delivery, &options()).1);
        }
    }
    assert!(other.is_empty(), "{} of {}:\n{}", other.len(), count, other.join("\n"));
}
