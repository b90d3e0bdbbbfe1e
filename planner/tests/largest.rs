//! The largest service that 13 allows, loaded and walked on a thread of little stack: everything runs in 64 KiB.

use std::thread::Builder;

use estelunya_planner::by_number::{load, Date, Table, Walk};
use estelunya_planner::layout::{
    CALL_WORDS, CATEGORY_WORDS, CLASS_WORDS, DAYS_WORDS, EXTRA_WORDS, HEADER_WORDS, INTERCHANGE_WORDS, MOST_CALLS,
    SERVICE_WORDS, STOP_WORDS,
};
use estelunya_planner::{Files, MOST_ROW_WORDS};

const STACK_BYTES: usize = 64 * 1024;

const CALLS: usize = MOST_CALLS;

/// Header, two stops, an interchange record, a category and the service.
const WORDS: usize = HEADER_WORDS
    + 2 * STOP_WORDS
    + INTERCHANGE_WORDS
    + CLASS_WORDS
    + SERVICE_WORDS
    + CALL_WORDS * CALLS
    + CATEGORY_WORDS * 50
    + DAYS_WORDS * 50
    + EXTRA_WORDS * 100;

/// A line of FPLAN with texts from given columns on.
fn line(texts: &[(usize, &str)]) -> String {
    let mut bytes = vec![b' '; 59];
    bytes[58] = b'%';
    for (column, text) in texts {
        bytes[column - 1..column - 1 + text.len()].copy_from_slice(text.as_bytes());
    }
    String::from_utf8(bytes).unwrap() + "\n"
}

/// The i-th of 50 ranges that cover the 199 legs, four each and the last three.
fn ends(i: usize) -> (String, String) {
    (format!("#{}", 4 * i), format!("#{}", (4 * i + 4).min(CALLS - 1)))
}

/// The i-th call: it arrives at minute 2 i and departs a minute later.
fn call(i: usize) -> String {
    let time = |minutes: usize| format!(" {:03}{:02}", minutes / 60, minutes % 60);
    let stop = if i % 2 == 0 { "1000011" } else { "1000022" };
    line(&[(1, stop), (30, &time(2 * i)), (37, &time(2 * i + 1))])
}

fn fplan() -> String {
    let mut text = line(&[(1, "*Z 00042 FERRY_")]);
    for i in 0..50 {
        let (from, to) = ends(i);
        text += &line(&[(1, "*G BAT"), (8, &from), (16, &to)]);
        text += &line(&[(1, "*A VE"), (7, &from), (15, &to)]);
        text += &line(&[(1, "*A BR"), (7, &from), (15, &to)]);
        text += &line(&[(1, "*A BW"), (7, &from), (15, &to)]);
    }
    (0..CALLS).for_each(|i| text += &call(i));
    text
}

#[test]
fn in_64_kib() {
    let fplan = fplan();
    let mut words = vec![0; WORDS];
    let mut lent = vec![0; MOST_ROW_WORDS];
    let asked = move || {
        let files = Files {
            eckdaten: b"01.12.2025\n07.12.2025\nLargest\n",
            bitfeld: b"",
            bahnhof: b"1000011     A\n1000022     B\n",
            umsteigb: b"9999999  2  3\n",
            fplan: fplan.as_bytes(),
            zugart: b"BAT  4   0 BAT      0 B",
        };
        let used = load(&files, &mut words).map(|loaded| loaded.words);
        let date = Date { day: 5, month: 12, year: 2025 };
        match Table::new(&words).walk(0, 0, date, &mut lent) {
            Ok(Walk::Rows(rows)) => (used, rows.iter().count()),
            _ => (used, 0),
        }
    };
    let answer = Builder::new().stack_size(STACK_BYTES).spawn(asked).unwrap().join().unwrap();
    assert_eq!(answer, (Ok(WORDS as u32), CALLS));
}
