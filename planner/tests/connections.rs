//! Proposed connections, by handles and by bare number, plain and by the index.

use estelunya_planner::by_number;
use estelunya_planner::{BadConnection, Files, Part, Refusal, Run, Scope, Timetable};

/// Out at 08:00, back at 09:00, and a boat of another category on from B at 08:13, late at night from B to C; alighting at B of the first is allowed, boarding there is not.
const FPLAN: &str = "\
*Z 00001 FERRY_                                           %
*G BAT                                                    %
*A VE                 000003                              %
1000011                              00800                %
1000022                       00810 -00812                %
1000033                       00830                       %
*Z 00002 FERRY_       001 005                             %
*G NAV                                                    %
*A VE                                                     %
1000022                              00813                %
1000033                       00840                       %
*Z 00003 FERRY_                                           %
*G BAT                                                    %
*A VE                                                     %
1000022                              02411                %
1000033                       02430                       %
";

/// Two days, 31.12.2025 and 01.01.2026; bit field 3 has the first. To change takes 3 minutes, at B 4.
fn two_days() -> Timetable {
    let bitfeld = format!("000003 EC{:0<94}\n", "");
    Timetable::load(&Files {
        eckdaten: b"31.12.2025\n01.01.2026\nTwo days",
        bitfeld: bitfeld.as_bytes(),
        bahnhof: b"1000011     A\n1000022     B\n1000033     C",
        umsteigb: b"9999999  2  3\n1000022  2  4",
        fplan: FPLAN.as_bytes(),
        zugart: b"BAT  4 A 0 BAT      0 B\nNAV  3 A 0 NAV      0 N",
    })
    .unwrap()
}

fn bad(part: usize, refusal: Refusal) -> Result<(), (usize, Refusal)> {
    Err((part, refusal))
}

fn told(answer: Result<(), by_number::BadPart>) -> Result<(), (usize, Refusal)> {
    answer.map_err(|bad| (bad.part, bad.refusal))
}

fn check<'t>(timetable: Scope<'t>, parts: &[Part<'t>]) -> Result<(), (usize, Refusal)> {
    timetable.connection(parts.to_vec()).check().map_err(|bad| match bad {
        BadConnection::PartCount => (0, bad.refusal()),
        BadConnection::Part { part, .. } => (part, bad.refusal()),
    })
}

#[test]
fn by_handles() {
    let timetable = two_days();
    timetable.scope(|timetable| {
        let [first, second] = ["31.12.2025", "01.01.2026"].map(|date| timetable.day(date.parse().unwrap()).unwrap());
        let services: Vec<_> = timetable.services().collect();
        let run = |service: usize, day, at| services[service].runs(day).nth(at).unwrap();
        let part = |run, board, alight| Part { run, board, alight };
        let out = run(0, first, 0);
        assert_eq!(check(timetable, &[part(out, 0, 2)]), Ok(()));
        assert_eq!(check(timetable, &[]), bad(0, Refusal::NotWholeParts));
        assert_eq!(check(timetable, &[part(out, 0, 2); 11]), bad(0, Refusal::NotWholeParts));
        assert_eq!(check(timetable, &[part(out, 0, 3)]), bad(1, Refusal::NotAmongRows));
        assert_eq!(check(timetable, &[part(out, usize::MAX, 2)]), bad(1, Refusal::NotAmongRows));
        assert_eq!(check(timetable, &[part(out, 2, 2)]), bad(1, Refusal::OrderOrPermission));
        assert_eq!(check(timetable, &[part(out, 1, 2)]), bad(1, Refusal::OrderOrPermission));
        // at B at 08:10, off at 08:13 is 3 minutes, and 4 are needed; 5 minutes later they are there
        let (early, late) = (run(1, first, 0), run(1, first, 1));
        assert_eq!(check(timetable, &[part(out, 0, 1), part(early, 0, 1)]), bad(2, Refusal::WaitTooShort));
        assert_eq!(check(timetable, &[part(out, 0, 1), part(late, 0, 1)]), Ok(()));
        assert_eq!(check(timetable, &[part(out, 0, 2), part(late, 0, 1)]), bad(2, Refusal::OtherStop));
        // the night before would be too early; of this date it is in time
        assert_eq!(check(timetable, &[part(out, 0, 1), part(run(2, first, 0), 0, 1)]), Ok(()));
        assert_eq!(check(timetable, &[part(early, 0, 1), part(run(1, second, 0), 0, 1)]), bad(2, Refusal::OtherStop));
        assert_eq!(check(timetable, &[part(out, 0, 1), part(run(1, second, 0), 0, 1)]), Ok(()));
    });
}

/// The same answers plain, by the index and by handles.
#[test]
fn by_number() {
    let timetable = two_days();
    let date = by_number::Date { day: 31, month: 12, year: 2025 };
    let whole = by_number::Part { service: 0, repeat: 0, date, boarding: 0, alighting: 2 };
    let cases = [
        (vec![whole], Ok(())),
        (vec![], bad(0, Refusal::NotWholeParts)),
        (vec![whole; 11], bad(0, Refusal::NotWholeParts)),
        (vec![by_number::Part { date: by_number::Date { day: 32, ..date }, ..whole }], bad(1, Refusal::NoSuchDate)),
        (vec![by_number::Part { date: by_number::Date { day: 1, ..date }, ..whole }], bad(1, Refusal::OutsidePeriod)),
        (vec![whole, by_number::Part { service: 3, ..whole }], bad(2, Refusal::NoSuchService)),
        (vec![by_number::Part { repeat: 1, ..whole }], bad(1, Refusal::NoSuchRepeat)),
        // not running on the second day
        (
            vec![by_number::Part { date: by_number::Date { day: 1, month: 1, year: 2026 }, ..whole }],
            bad(1, Refusal::NotAmongRows),
        ),
        (vec![by_number::Part { alighting: u32::MAX, ..whole }], bad(1, Refusal::NotAmongRows)),
    ];
    for (parts, expected) in cases {
        assert_eq!(told(timetable.by_number().connection(&parts)), expected, "{:?}", parts);
        assert_eq!(told(timetable.indexed().connection(&parts)), expected, "{:?}", parts);
    }
    let none = by_number::Table::new(&[]);
    assert_eq!(told(none.connection(&[])), bad(0, Refusal::NotATable));
    assert_eq!(told(none.with_index(&[]).connection(&[whole])), bad(0, Refusal::NotATable));
    let short = timetable.by_number().with_index(&[]);
    assert_eq!(told(short.connection(&[])), bad(0, Refusal::NotItsIndex));
}

/// A run is what a part says that it is.
#[test]
fn runs() {
    let timetable = two_days();
    timetable.scope(|timetable| {
        let day = timetable.days().next().unwrap();
        let runs: Vec<Run<'_>> = timetable.services().flat_map(|service| service.runs(day)).collect();
        assert_eq!(runs.len(), 4);
        for run in runs {
            let calls: Vec<_> = run.calls().collect();
            let ends = (calls[0].place(), calls[calls.len() - 1].place());
            let whole = timetable.connection([Part { run, board: ends.0, alight: ends.1 }]);
            assert_eq!((whole.check(), whole.parts().len()), (Ok(()), 1));
        }
    });
}
