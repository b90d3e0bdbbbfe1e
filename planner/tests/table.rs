//! The trial week's table: what it answers and lists; and what any words list.

mod trial_week;

use estelunya_planner::by_number::{category_word, load, Date, Table, Walk};
use estelunya_planner::layout::HEADER_WORDS;
use estelunya_planner::{Files, Refusal, MOST_ROW_WORDS};
use trial_week::TRIAL_WEEK;

const BAHNHOF: &[u8] = include_bytes!("../../crates/ferry/data/BAHNHOF");

fn trial_week() -> Vec<u32> {
    let mut words = vec![7; 100];
    assert_eq!(load(&TRIAL_WEEK, &mut words).unwrap().words, 82);
    words
}

/// Two calls, then three.
const FPLAN: &str = "\
*Z 00007 FERRY_                                           %
*G BAT                                                    %
*A VE                                                     %
1000011                              00800                %
1000022                       00810                       %
*Z 00042 FERRY_                                           %
*G BAT                                                    %
*A VE                                                     %
1000022                              00900                %
1000011                       00910  00912                %
1000022                       00930                       %
";

/// No bit field, two stops, two services; then words that are not the table's.
fn two_services() -> Vec<u32> {
    let files = Files {
        eckdaten: b"01.12.2025\n07.12.2025\nTwo\n",
        bitfeld: b"",
        bahnhof: b"1000022     B\n1000011     A\n",
        umsteigb: b"9999999  2  3\n",
        fplan: FPLAN.as_bytes(),
        zugart: b"BAT  4   0 BAT      0 B\n",
    };
    let mut words = vec![11; 100];
    load(&files, &mut words).unwrap();
    words
}

fn december(day: u32) -> Date {
    Date { day, month: 12, year: 2025 }
}

/// "The walk on 05.12.2025 gives four rows, the first 1000011, 0, 480, 2, 4342100, 2, 3; on 06.12.2025 it is not running." With
/// document 02, No. 5, number and administration follow the flags.
#[test]
fn walked() {
    let words = trial_week();
    let table = Table::new(&words);
    let mut lent = vec![0; MOST_ROW_WORDS];
    match table.walk(0, 0, december(5), &mut lent) {
        Ok(Walk::Rows(rows)) => {
            assert_eq!(rows.iter().len(), 4);
            assert_eq!(rows.words()[..10], [1_000_011, 0, 480, 2, 42, 0x46_4552, 0x52_595F, 4_342_100, 2, 3]);
        }
        other => panic!("{:?}", other),
    }
    assert_eq!(table.walk(0, 0, december(6), &mut lent), Ok(Walk::NotRunning));
}

/// "FE6 and zeros runs on days 0 to 4"; "Times 2 and 3: classes 1, 1 give 2", and document 02, No. 2: 2, 2 give 2; 2, 3 give 3.
#[test]
fn asked() {
    let words = trial_week();
    let table = Table::new(&words);
    for day in 1..=7 {
        assert_eq!(table.day(1, december(day)), Ok(day <= 5));
    }
    let minutes = |a, b| table.interchange(1_000_011, a, b);
    assert_eq!((minutes(1, 1), minutes(2, 2), minutes(2, 3)), (Ok(2), Ok(2), Ok(3)));
}

/// Document 02, No. 1: "The new question takes a stop and two categories"; 21, 27, 38.
#[test]
fn between_categories() {
    let words = trial_week();
    let (table, boat) = (Table::new(&words), category_word(*b"BAT"));
    assert_eq!((table.categories(), table.class_of(boat), table.class_of(boat | 0x20)), (1, Some(4), None));
    assert_eq!(table.interchange_between(1_000_011, boat, boat), Ok(3));
    for (arriving, departing) in [(boat, 0), (0, boat), (category_word(*b"bat"), boat), (boat, boat | 1 << 24)] {
        assert_eq!(table.interchange_between(1_000_011, arriving, departing), Err(Refusal::CategoryUnknown));
        assert_eq!(table.interchange_between(9_999_999, arriving, departing), Err(Refusal::StopUnknown));
    }
    assert_eq!(Table::new(&words[1..]).interchange_between(1, boat, boat), Err(Refusal::NotATable));
    // a class over 13 is no table
    let mut over = words.clone();
    over[35] = 14;
    assert_eq!(Table::new(&over).interchange_between(1_000_011, boat, boat), Err(Refusal::NotATable));
}

/// "three stops of R", "service 00042".
#[test]
fn listed() {
    let words = trial_week();
    let table = Table::new(&words);
    assert_eq!((table.services(), table.service_number(0), table.service_number(1)), (1, Some(42), None));
    assert_eq!(table.stops(), 3);
    let stops: Vec<Option<u32>> = (0..4).map(|index| table.stop_number(index)).collect();
    assert_eq!(stops, [Some(1_000_011), Some(1_000_022), Some(1_000_033), None]);
    let names = [1_000_011, 1_000_022, 1_000_033].map(|stop| table.stop_name(stop, BAHNHOF));
    assert_eq!(names, [Some(&b"Quay A"[..]), Some(b"Quay B"), Some(b"Quay C")]);
    assert_eq!(table.stop_name(9_999_999, BAHNHOF), None);
}

#[test]
fn in_file_order() {
    let words = two_services();
    let table = Table::new(&words);
    assert_eq!(table.service_numbers().collect::<Vec<_>>(), [7, 42]);
    assert_eq!((table.service_number(1), table.service_number(2)), (Some(42), None));
    let stops: Vec<Option<u32>> = (0..3).map(|index| table.stop_number(index)).collect();
    assert_eq!(stops, [Some(1_000_022), Some(1_000_011), None]);
}

/// BAHNHOF that is cut short, or not there.
#[test]
fn other_bytes() {
    let words = trial_week();
    let name = |bytes| Table::new(&words).stop_name(1_000_022, bytes);
    assert_eq!(name(&BAHNHOF[..37]), Some(&b"Quay B"[..]));
    assert_eq!((name(&BAHNHOF[..36]), name(b"")), (None, None));
}

fn all_read(words: &[u32]) {
    let table = Table::new(words);
    let (services, stops) = (table.services(), table.stops());
    for index in [0, 1, 2, services, stops, u32::MAX] {
        table.service_number(index);
        if let Some(kind) = table.kind(index) {
            let last = kind.last_repeat();
            assert_eq!((kind.late(last).is_some(), kind.late(last + 1)), (true, None));
        }
        let stop = table.stop_number(index).unwrap_or(index);
        table.stop_name(stop, BAHNHOF);
        table.class_of(index);
    }
    assert!(table.service_numbers().count() <= words.len());
}

/// Cut at each length, and with each word changed, there is an answer.
#[test]
fn any_words() {
    let words = trial_week();
    for length in 0..words.len() {
        all_read(&words[..length]);
    }
    for at in 0..82 {
        for value in [0, 1, 8, 9, 80, 81, 82, 83, 1 << 31, u32::MAX] {
            let mut changed = words.clone();
            changed[at] = value;
            all_read(&changed);
            all_read(&[value; 14]);
        }
    }
    assert_eq!((Table::new(&[]).services(), Table::new(&words[..HEADER_WORDS - 1]).stops()), (0, 0));
}
