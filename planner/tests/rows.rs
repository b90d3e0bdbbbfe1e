//! A walk through its typed rows, and those of document 01's checked examples that no theorem proves.

use estelunya_planner::by_number::{load, Date, Table, Walk};
use estelunya_planner::{File, Files, LoadRefusal, Offence, Refusal, ROW_WORDS};

const FPLAN: &str = "\
*Z 00007 FERRY_       002 030                             %
*G BAT                                                    %
*A VE                                                     %
1000011                       02355  02359                %
1000022                      -02410 -02412 00008          %
1000033                       02430  02435       NIGHT_   %
";

const NEW_YEAR: Date = Date { day: 31, month: 12, year: 2025 };

const ONE_NIGHT: Files<'static> = Files {
    eckdaten: b"31.12.2025\n31.12.2025\nOne night",
    bitfeld: b"",
    bahnhof: b"1000011     A\n1000022     B\n1000033     C",
    umsteigb: b"9999999  2  3\n1000022  4 15",
    fplan: FPLAN.as_bytes(),
    zugart: b"BAT  4   0 BAT      0 B",
};

fn table_of(files: &Files<'_>) -> Result<Vec<u32>, LoadRefusal> {
    let mut words = vec![0; 100];
    let loaded = load(files, &mut words)?;
    words.truncate(loaded.words as usize);
    Ok(words)
}

fn words() -> Vec<u32> {
    table_of(&ONE_NIGHT).unwrap()
}

#[test]
fn typed() {
    let words = words();
    let mut lent = [9; 3 * ROW_WORDS + 2];
    let rows = match Table::new(&words).walk(0, 2, NEW_YEAR, &mut lent).unwrap() {
        Walk::Rows(rows) => rows,
        Walk::NotRunning => panic!("not running"),
    };
    let [first, between, last] = match rows.iter().collect::<Vec<_>>()[..] {
        [first, between, last] => [first, between, last],
        _ => panic!("{:?}", rows),
    };
    let late = 2 * 30;
    assert_eq!((first.arrival(), first.departure()), (None, Some(1_439 + late)));
    assert_eq!((first.may_alight(), first.may_board()), (false, true));
    assert_eq!((between.arrival(), between.departure()), (Some(1_450 + late), Some(1_452 + late)));
    assert_eq!((between.may_alight(), between.may_board()), (false, false));
    assert_eq!((last.arrival(), last.departure()), (Some(1_470 + late), None));
    assert_eq!((last.may_alight(), last.may_board()), (true, false));
    assert_eq!(rows.iter().map(|row| row.stop()).collect::<Vec<_>>(), [1_000_011, 1_000_022, 1_000_033]);
    assert_eq!((first.category(), between.category(), last.category()), (Some(*b"BAT"), Some(*b"BAT"), None));
    assert_eq!((first.interchange_times(), between.interchange_times()), ([2, 3], [4, 15]));
    // number and administration change each by itself
    let announced: Vec<(u32, [u8; 6])> = rows.iter().map(|row| (row.number(), row.administration())).collect();
    assert_eq!(announced, [(7, *b"FERRY_"), (8, *b"FERRY_"), (8, *b"NIGHT_")]);
    assert_eq!(between.words().len(), ROW_WORDS);
    assert_eq!(lent[3 * ROW_WORDS..], [9, 9]);
}

#[test]
fn refused() {
    let words = words();
    let table = Table::new(&words);
    let mut lent = [9; 20];
    assert_eq!(table.walk(0, 0, NEW_YEAR, &mut lent), Err(Refusal::RowsTooShort { needed: 30 }));
    assert_eq!(table.walk(0, 3, NEW_YEAR, &mut lent), Err(Refusal::NoSuchRepeat));
    assert_eq!(table.walk(1, 0, NEW_YEAR, &mut lent), Err(Refusal::NoSuchService));
    assert_eq!(table.walk(0, 0, Date { day: 1, month: 1, year: 2026 }, &mut lent), Err(Refusal::OutsidePeriod));
    assert_eq!(table.day(1, Date { month: 13, ..NEW_YEAR }), Err(Refusal::NoSuchDate));
    assert_eq!(table.day(1, NEW_YEAR), Err(Refusal::NoSuchBitField));
    assert_eq!(
        (table.interchange(1, 0, 0), table.interchange(1, 14, 0)),
        (Err(Refusal::StopUnknown), Err(Refusal::ClassOver13))
    );
    assert_eq!(Table::new(&words[1..]).interchange(1, 0, 0), Err(Refusal::NotATable));
    assert_eq!(lent, [9; 20]);
}

/// A stretch that begins in mid-route shows what holds there.
#[test]
fn from_mid_route() {
    let fplan = FPLAN.replace(
        "*A VE                                                     %\n",
        "*A VE         #1      000001                              %\n*A VE #1                                                  %\n",
    );
    // One day, on which 000001 does not run.
    let never = format!("000001 D8{:0<94}", "");
    let words = table_of(&Files { fplan: fplan.as_bytes(), bitfeld: never.as_bytes(), ..ONE_NIGHT }).unwrap();
    let mut lent = [9; 2 * ROW_WORDS];
    let announced: Vec<(u32, u32, [u8; 6])> = match Table::new(&words).walk(0, 0, NEW_YEAR, &mut lent).unwrap() {
        Walk::Rows(rows) => rows.iter().map(|row| (row.stop(), row.number(), row.administration())).collect(),
        Walk::NotRunning => panic!("not running"),
    };
    assert_eq!(announced, [(1_000_022, 8, *b"FERRY_"), (1_000_033, 8, *b"NIGHT_")]);
}

// "380 days pass, 381 answer 5": at line 2. 01.01.2025 to 31.12.2025 are 365 days.
#[test]
fn longest_period() {
    let until = |end: &str| {
        let eckdaten = format!("01.01.2025\n{end}\nA long year");
        table_of(&Files { eckdaten: eckdaten.as_bytes(), ..ONE_NIGHT })
    };
    assert_eq!(until("15.01.2026").unwrap()[2], 380);
    let refusal = until("16.01.2026").unwrap_err();
    assert_eq!(
        (refusal.offence.number(), refusal.offence, refusal.file, refusal.line),
        (5, Offence::NoSuchDate, Some(File::Eckdaten), 2)
    );
}

// "Repeats 023, offset 010: 24 runs, the last 230 minutes late."
#[test]
fn last_repeat() {
    let fplan = FPLAN.replace("002 030", "023 010");
    let words = table_of(&Files { fplan: fplan.as_bytes(), ..ONE_NIGHT }).unwrap();
    let table = Table::new(&words);
    let departure = |repeat| -> Result<Option<u32>, Refusal> {
        let mut lent = [0; 3 * ROW_WORDS];
        match table.walk(0, repeat, NEW_YEAR, &mut lent)? {
            Walk::Rows(rows) => Ok(rows.iter().next().and_then(|first| first.departure())),
            Walk::NotRunning => Ok(None),
        }
    };
    let runs: Vec<u32> = (0..24).map(|repeat| departure(repeat).unwrap().unwrap()).collect();
    assert_eq!((runs.len(), runs[23] - runs[0]), (24, 230));
    assert_eq!(departure(24), Err(Refusal::NoSuchRepeat));
    assert_eq!(Refusal::NoSuchRepeat.number(), 25);
}

// "60 passes in UMSTEIGB 9-10, 61 answers 4."
#[test]
fn longest_interchange() {
    let first_time = |time: &str| {
        let umsteigb = format!("9999999 {time}  3");
        table_of(&Files { umsteigb: umsteigb.as_bytes(), ..ONE_NIGHT })
    };
    assert_eq!(Table::new(&first_time("60").unwrap()).interchange(1_000_011, 1, 1), Ok(60));
    let refusal = first_time("61").unwrap_err();
    assert_eq!(
        (refusal.offence.number(), refusal.offence, refusal.file, refusal.line),
        (4, Offence::Form, Some(File::Umsteigb), 1)
    );
}
