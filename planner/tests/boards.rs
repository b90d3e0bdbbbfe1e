//! Departure boards: what walking every run lists, in order, each once.

use estelunya_planner::by_number::{Date as Numbers, Departure as Bare, Table};
use estelunya_planner::{Date, Files, Minutes, Moment, Refusal, Timetable};

/// A *Z with repeats that passes midnight and calls at B twice, of which the last leg rests on the second day; a *T; one that forbids boarding at B.
const FPLAN: &str = "\
*Z 00007 FERRY_       002 030                             %
*G BAT                                                    %
*A VE              #2 000000                              %
*A VE      #2         000003                              %
1000011                              02355                %
1000022                       02410  02412                %
1000033                       02430  02431                %
1000022                       02440                       %
*T 00042 FERRY_ 0240 0450                                 %
*G BAT                                                    %
*A VE                 000003                              %
1000022                              00900                %
1000011                       00910                       %
*Z 00009 FERRY_                                           %
*G BAT                                                    %
*A VE                                                     %
1000033                              00855                %
1000022                       00858 -00900                %
1000011                       00910                       %
";

/// Two days, 31.12.2025 and 01.01.2026; bit field 3 has the first.
fn two_days() -> Timetable {
    let bitfeld = format!("000003 EC{:0<94}\n", "");
    Timetable::load(&Files {
        eckdaten: b"31.12.2025\n01.01.2026\nTwo days",
        bitfeld: bitfeld.as_bytes(),
        bahnhof: b"1000022     B\n1000011     A\n1000033     C\n1000044     Nobody",
        umsteigb: b"9999999  2  3",
        fplan: FPLAN.as_bytes(),
        zugart: b"BAT  4 A 0 BAT      0 B",
    })
    .unwrap()
}

/// Time, service's number, run and place of each departure, as a walk of every run lists them.
fn walked(timetable: &Timetable, stop: u32, date: Date, first: u32, last: u32) -> Vec<(u32, usize, u32, usize)> {
    let mut listed: Vec<_> = timetable.scope(|timetable| {
        let (day, services) = (timetable.day(date).unwrap(), timetable.services().enumerate());
        let runs = services.flat_map(|(at, service)| service.runs(day).map(move |run| (at, run)));
        runs.flat_map(|(at, run)| {
            run.calls()
                .filter(|call| call.stop().number() == stop && call.may_board())
                .map(move |call| (call.departure().unwrap().count(), at, run.repeat(), call.place()))
                .collect::<Vec<_>>()
        })
        .filter(|row| first <= row.0 && row.0 <= last)
        .collect()
    });
    listed.sort_unstable();
    listed
}

fn boarded(timetable: &Timetable, stop: u32, date: Date, first: u32, last: u32) -> Vec<(u32, usize, u32, usize)> {
    timetable.scope(|timetable| {
        let stop = timetable.stop_by_number(stop).unwrap();
        let services: Vec<_> = timetable.services().collect();
        let board = stop.board(timetable.day(date).unwrap(), first.into()..=last.into());
        board
            .map(|leaves| {
                let (call, run) = (leaves.call(), leaves.run());
                assert_eq!((call.departure(), call.stop(), call.run()), (Some(leaves.time()), stop, run));
                let at = services.iter().position(|service| *service == leaves.service()).unwrap();
                (leaves.time().count(), at, run.repeat(), call.place())
            })
            .collect()
    })
}

#[test]
fn as_walked() {
    let timetable = two_days();
    let mut rows = 0;
    for date in timetable.period().dates() {
        for stop in [1_000_011, 1_000_022, 1_000_033, 1_000_044] {
            for (first, last) in [
                (0, u32::MAX),
                (0, 539),
                (540, 540),
                (541, 541),
                (540, 780),
                (1_435, 1_512),
                (1_452, 1_452),
                (600, 599),
            ] {
                let expected = walked(&timetable, stop, date, first, last);
                rows += expected.len();
                assert_eq!(boarded(&timetable, stop, date, first, last), expected, "{} on {}", stop, date);
            }
        }
    }
    assert!(rows > 100, "{} rows", rows);
}

/// From a moment on: what walking every run of every day lists, by calendar and clock, whatever the moment.
#[test]
fn from_a_moment() {
    let timetable = two_days();
    let (first, last) = (timetable.period().first, timetable.period().last);
    let mut given = 0;
    for stop in [1_000_011, 1_000_022, 1_000_033, 1_000_044] {
        let mut all: Vec<(Moment, Date, usize, u32, usize)> = Vec::new();
        for date in timetable.period().dates() {
            let rows = walked(&timetable, stop, date, 0, u32::MAX);
            all.extend(rows.iter().map(|row| (Moment::new(date, row.0.into()), date, row.1, row.2, row.3)));
        }
        all.sort_unstable();
        let moments = (0..2 * 1_440 + 200).step_by(11).map(|time| Moment::new(first, time.into()));
        // long before and after the period too
        let far = ["01.01.1900", "30.12.2025", "03.01.2026", "31.12.2199"]
            .map(|date| Moment::new(date.parse().unwrap(), Minutes::new(23, 50)));
        for from in moments.chain(far).chain([Moment::new(last, u32::MAX.into())]) {
            let expected: Vec<_> = all.iter().filter(|row| row.0 >= from).copied().collect();
            let listed: Vec<_> = timetable.scope(|timetable| {
                let services: Vec<_> = timetable.services().collect();
                let departures = timetable.stop_by_number(stop).unwrap().departures(from);
                let at = |leaves| services.iter().position(|service| *service == leaves).unwrap();
                departures
                    .map(|leaves| {
                        let run = leaves.run();
                        (leaves.moment(), run.date(), at(leaves.service()), run.repeat(), leaves.place())
                    })
                    .collect()
            });
            given += listed.len();
            assert_eq!(listed, expected, "{} from {}", stop, from);
        }
    }
    assert!(given > 5_000, "{} departures", given);
}

#[test]
fn refused() {
    let timetable = two_days();
    assert!(timetable.scope(|timetable| timetable.day("02.01.2026".parse().unwrap()).is_none()));
    let (indexed, date) = (timetable.indexed(), Numbers { day: 31, month: 12, year: 2025 });
    let no_date = Numbers { day: 32, ..date };
    assert_eq!(indexed.board(1, no_date, 0..=9), Err(Refusal::NoSuchDate));
    assert_eq!(indexed.board(1, date, 0..=9), Err(Refusal::StopUnknown));
    // 22 and 27 before 43; words that are no table first
    let own = indexed.index();
    let bad = timetable.by_number().with_index(&own[1..]);
    assert_eq!(bad.checked_board_into(1, no_date, 0..=9, &mut []), Err(Refusal::NoSuchDate));
    assert_eq!(bad.checked_board_into(1, date, 0..=9, &mut []), Err(Refusal::StopUnknown));
    assert_eq!(bad.checked_board_into(1_000_022, date, 0..=9, &mut []), Err(Refusal::NotItsIndex));
    assert_eq!(bad.board(1_000_022, date, 0..=9), Err(Refusal::NotItsIndex));
    assert_eq!(Table::new(&[]).with_index(own).board(1, date, 0..=9), Err(Refusal::NotATable));
}

/// Room one word short; later words stay; a longer board than usual.
#[test]
fn room() {
    let timetable = two_days();
    let (indexed, date) = (timetable.indexed(), Numbers { day: 31, month: 12, year: 2025 });
    let all = indexed.board(1_000_022, date, 0..=u32::MAX).unwrap();
    let needed = 4 * all.len();
    let mut list = vec![9; needed + 1];
    for ask in [
        |list: &mut [u32], timetable: &Timetable, date| {
            timetable.indexed().board_into(1_000_022, date, 0..=u32::MAX, list)
        },
        |list: &mut [u32], timetable: &Timetable, date| {
            timetable.indexed().checked_board_into(1_000_022, date, 0..=u32::MAX, list)
        },
    ] {
        list.fill(9);
        assert_eq!(ask(&mut list[..needed - 1], &timetable, date), Err(Refusal::RowsTooShort { needed }));
        assert!(list.iter().all(|word| *word == 9));
        assert_eq!(ask(&mut list, &timetable, date), Ok(all.len()));
        assert_eq!(list[needed], 9);
        let rows: Vec<Bare> = list
            .chunks_exact(4)
            .map(|row| Bare { time: row[0], service: row[1], repeat: row[2], place: row[3] })
            .collect();
        assert_eq!(rows, all.iter().collect::<Vec<_>>());
    }
}
