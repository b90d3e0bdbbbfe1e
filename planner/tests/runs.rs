//! Runs of both kinds of services in one table: which there are, how late each is, and that a walk says the same.

use estelunya_planner::by_number::{load, Date, Table, Walk};
use estelunya_planner::{Files, Kind, Refusal, ROW_WORDS};

const DAY: Date = Date { day: 31, month: 12, year: 2025 };

/// A *T before the first *Z, with 5.3.3's running time and density; a *Z with repeats; a *T with one run; a *Z without repeats.
const OPENINGS: [&str; 4] = [
    "*T 00001 FERRY_ 0240 0450                                 %",
    "*Z 00002 FERRY_       023 010                             %",
    "*T 00003 FERRY_ 0000 9999                                 %",
    "*Z 00004 FERRY_                                           %",
];

const LINES: &str = "
*G BAT                                                    %
*A VE                                                     %
1000011                              00800                %
1000022                       00810                       %
";

fn words() -> Vec<u32> {
    let fplan: String = OPENINGS.iter().map(|opening| format!("{}{}", opening, LINES)).collect();
    let files = Files {
        eckdaten: b"31.12.2025\n31.12.2025\nOne day",
        bitfeld: b"",
        bahnhof: b"1000011     A\n1000022     B",
        umsteigb: b"9999999  2  3",
        fplan: fplan.as_bytes(),
        zugart: b"BAT  4   0 BAT      0 B",
    };
    let mut words = vec![0; 200];
    let loaded = load(&files, &mut words).unwrap();
    words.truncate(loaded.words as usize);
    words
}

#[test]
fn kinds() {
    let words = words();
    let table = Table::new(&words);
    let kinds: Vec<Option<Kind>> = (0..5).map(|index| table.kind(index)).collect();
    let expected = [
        Some(Kind::Frequent { running_time: 240, density: 450 }),
        Some(Kind::Repeated { repeats: 23, offset: 10 }),
        Some(Kind::Frequent { running_time: 0, density: 9_999 }),
        Some(Kind::Repeated { repeats: 0, offset: 0 }),
        None,
    ];
    assert_eq!(kinds, expected);
}

/// 5.3.3's example has runs 0 to 32; run 1 is 8 minutes late, run 3 is 23 and not 24, run 32 is 240.
#[test]
fn lateness() {
    let words = words();
    let kind = Table::new(&words).kind(0).unwrap();
    assert_eq!((kind.last_repeat(), kind.late(33)), (32, None));
    let late: Vec<u32> = [0, 1, 2, 3, 32].iter().filter_map(|repeat| kind.late(*repeat)).collect();
    assert_eq!(late, [0, 8, 15, 23, 240]);
}

/// Each run walks as late as it says, and the next after the last is refused with 25.
#[test]
fn walked() {
    let words = words();
    let table = Table::new(&words);
    let mut lent = [0; 2 * ROW_WORDS];
    for service in 0..4 {
        let kind = table.kind(service).unwrap();
        for repeat in 0..=kind.last_repeat() {
            let late = kind.late(repeat).unwrap();
            match table.walk(service, repeat, DAY, &mut lent) {
                Ok(Walk::Rows(rows)) => {
                    let times: Vec<(Option<u32>, Option<u32>)> =
                        rows.iter().map(|row| (row.arrival(), row.departure())).collect();
                    assert_eq!(times, [(None, Some(480 + late)), (Some(490 + late), None)]);
                }
                other => panic!("{:?}", other),
            }
        }
        for over in [kind.last_repeat() + 1, u32::MAX] {
            assert_eq!(table.walk(service, over, DAY, &mut lent), Err(Refusal::NoSuchRepeat));
        }
    }
}
