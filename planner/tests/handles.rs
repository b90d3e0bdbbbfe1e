//! A timetable through its handles: they say what the numbers say, and everything that the table holds.

use std::collections::HashSet;
use std::sync::Arc;
use std::thread;

use estelunya_planner::by_number::Walk;
use estelunya_planner::{
    Attribute, Call, Class, Coding, Date, Day, Files, Kind, Language, LoadError, Minutes, NameType, Offence, Scope,
    Timetable, MOST_ROW_WORDS,
};

/// A *Z with repeats, of which the second leg does not run on the second day; a *T; both with other attributes.
const FPLAN: &str = "\
*Z 00007 FERRY_       002 030                             %
*G BAT         1000022                                    %
*G SCH 1000022                                            %
*A VE         1000022                                     %
*A VE 1000022         000003                              %
*A FR                 000003                              %
*A K2 1000022                                             %
1000011                              02355                %
1000022                      -02410 -02412 00008          %
1000033                       02430        00008 NIGHT_   %
*T 00042 FERRY_ 0240 0450                                 %
*G BAT                                                    %
*A VE                 000003                              %
1000022                              00900                %
1000011                       00910                       %
";

/// Two days, 31.12.2025 and 01.01.2026; bit field 3 has the first.
fn two_days() -> Result<Timetable, LoadError> {
    loaded("9999999  2  3\n1000022  4 15")
}

fn loaded(umsteigb: &str) -> Result<Timetable, LoadError> {
    let bitfeld = format!("000003 EC{:0<94}\n", "");
    Timetable::load(&Files {
        eckdaten: b"31.12.2025\n01.01.2026\nTwo days",
        bitfeld: bitfeld.as_bytes(),
        bahnhof: b"1000022     B$<d>$Bee$<e>\n1000011     A\n1000033     C",
        umsteigb: umsteigb.as_bytes(),
        fplan: FPLAN.as_bytes(),
        zugart: b"% ships and trains\nBAT  4 A 0 BAT      0 B\nSCH 13 A 0 SCH      0\nIC   2 B 0 IC       1\n",
    })
}

fn date(text: &str) -> Date {
    text.parse().unwrap()
}

fn first() -> Date {
    date("31.12.2025")
}

fn second() -> Date {
    date("01.01.2026")
}

fn both(timetable: Scope<'_>) -> [Day<'_>; 2] {
    [first(), second()].map(|date| timetable.day(date).unwrap())
}

#[test]
fn shared_between_threads() {
    fn shared<T: Send + Sync + 'static>(_: &T) {}
    let timetable = Arc::new(two_days().unwrap());
    shared(&timetable);
    let other = Arc::clone(&timetable);
    let counted = thread::spawn(move || other.scope(|timetable| timetable.services().len()));
    assert_eq!(counted.join().unwrap(), 2);
    timetable.scope(|timetable| {
        let service = timetable.services().next().unwrap();
        let day = timetable.days().next().unwrap();
        let walked = thread::scope(|scope| scope.spawn(|| service.runs(day).len()).join());
        assert_eq!(walked.unwrap(), 3);
    });
}

#[test]
fn heads() {
    let timetable = two_days().unwrap();
    let period = timetable.period();
    assert_eq!((period.first, period.last, period.day_count()), (first(), second(), 2));
    assert_eq!(period.dates().collect::<Vec<_>>(), [first(), second()]);
    assert!(period.contains(second()) && !period.contains(date("02.01.2026")));
    timetable.scope(|timetable| {
        let said: Vec<_> =
            timetable.services().map(|service| (service.number(), service.administration(), service.kind())).collect();
        let expected = [
            (7, *b"FERRY_", Kind::Repeated { repeats: 2, offset: 30 }),
            (42, *b"FERRY_", Kind::Frequent { running_time: 240, density: 450 }),
        ];
        assert_eq!(said, expected);
        let lines: Vec<u32> = timetable.services().rev().map(|service| service.opening_line()).collect();
        assert_eq!(lines, [11, 1]);
        assert_eq!(timetable.services().collect::<HashSet<_>>().len(), 2);
    });
}

#[test]
fn ranges() {
    let timetable = two_days().unwrap();
    timetable.scope(|timetable| {
        let service = timetable.services().next().unwrap();
        let categories: Vec<_> = service.categories().map(|part| (part.category.code(), part.from, part.to)).collect();
        assert_eq!(categories, [(*b"BAT", 0, 1), (*b"SCH", 1, 2)]);
        let days: Vec<_> = service.operating_days().map(|part| (part.field.day_count(), part.from, part.to)).collect();
        assert_eq!(days, [(2, 0, 1), (1, 1, 2)]);
        let attributes: Vec<_> =
            service.attributes().map(|part| (part.code, part.field.day_count(), part.from, part.to)).collect();
        assert_eq!(attributes, [(*b"FR", 1, 0, 2), (*b"K2", 2, 1, 2)]);
        let route: Vec<_> =
            service.route().map(|call| (call.stop().number(), call.arrival(), call.departure())).collect();
        let time = |hours, minutes| Some(Minutes::new(hours, minutes));
        let expected =
            [(1_000_011, None, time(23, 55)), (1_000_022, time(24, 10), time(24, 12)), (1_000_033, time(24, 30), None)];
        assert_eq!(route, expected);
        let between = service.route().nth(1).unwrap();
        assert_eq!((between.no_alighting(), between.no_boarding(), between.number()), (true, true, 8));
        assert_eq!(service.route().last().unwrap().administration(), *b"NIGHT_");
        let sizes: Vec<_> =
            timetable.services().map(|service| (service.route().len(), service.attributes().len())).collect();
        assert_eq!(sizes, [(3, 2), (2, 0)]);
    });
}

#[test]
fn runs() {
    let timetable = two_days().unwrap();
    timetable.scope(|timetable| {
        let counts = |day| -> Vec<usize> { timetable.services().map(|service| service.runs(day).len()).collect() };
        let [one, two] = both(timetable);
        assert_eq!((counts(one), counts(two)), (vec![3, 33], vec![3, 0]));
        let service = timetable.services().next().unwrap();
        let last = service.runs(one).last().unwrap();
        assert_eq!(
            (last.repeat(), last.late(), last.day(), last.date(), last.service()),
            (2, 60, one, first(), service)
        );
        assert_eq!(last.calls().last().unwrap().arrival(), Some(Minutes::new(25, 30)));
        // on the second day the second leg rests
        let short = service.runs(two).next().unwrap();
        assert_eq!(short.calls().map(|call| call.stop().number()).collect::<Vec<_>>(), [1_000_011, 1_000_022]);
        let legs: Vec<_> = short.calls().map(|call| call.departing_category().map(|leg| leg.to_string())).collect();
        assert_eq!(legs, [Some("BAT".to_string()), None]);
    });
}

/// Every run of every day, word by word as the walk by numbers gives it.
#[test]
fn as_by_number() {
    let timetable = two_days().unwrap();
    let (table, mut lent) = (timetable.by_number(), vec![0; MOST_ROW_WORDS]);
    for date in timetable.period().dates() {
        let walked: Vec<Vec<u32>> = timetable.scope(|timetable| {
            let day = timetable.day(date).unwrap();
            let runs = timetable.services().flat_map(|service| service.runs(day));
            runs.map(|run| run.calls().flat_map(|call| call.row().words().to_vec()).collect()).collect()
        });
        let mut expected = Vec::new();
        for service in 0..table.services() {
            for repeat in 0..=table.kind(service).unwrap().last_repeat() {
                match table.walk(service, repeat, date.into(), &mut lent).unwrap() {
                    Walk::Rows(rows) => expected.push(rows.words().to_vec()),
                    Walk::NotRunning => {}
                }
            }
        }
        assert_eq!(walked, expected);
    }
}

#[test]
fn stops() {
    let timetable = two_days().unwrap();
    timetable.scope(|timetable| {
        let names: Vec<_> = timetable.stops().map(|stop| stop.name(Language::English, NameType::ANY)).collect();
        assert_eq!(names, [&b"Bee"[..], b"A", b"C"]);
        let stop = timetable.stop_by_number(1_000_022).unwrap();
        assert_eq!((stop, stop.name_field()), (timetable.stops().next().unwrap(), &b"B$<d>$Bee$<e>"[..]));
        assert_eq!(stop.name_text(Language::Any, NameType::ANY, Coding::IbmPc), "B");
        let [high, low] = [2, 3].map(|number| Class::new(number).unwrap());
        assert_eq!((stop.interchange(high, high), stop.interchange(high, low)), (4, 15));
        assert_eq!(timetable.stop_by_number(9_999_999), None);
        let records: Vec<_> = timetable.interchanges().map(|record| (record.stop, record.times)).collect();
        assert_eq!(records, [(None, [2, 3]), (Some(stop), [4, 15])]);
    });
}

/// Categories with their classes, and the change between two services: the leg that arrives is that of the call before.
#[test]
fn categories() {
    let timetable = two_days().unwrap();
    timetable.scope(|timetable| {
        let listed: Vec<_> =
            timetable.categories().map(|category| (category.code(), category.class().number())).collect();
        assert_eq!(listed, [(*b"BAT", 4), (*b"SCH", 13), (*b"IC ", 2)]);
        let of = |code: &[u8; 3]| timetable.category_by_code(*code);
        let (boat, train) = (of(b"BAT").unwrap(), of(b"IC ").unwrap());
        assert_eq!((of(b"bat"), of(b"IC\0")), (None, None));
        assert_eq!(format!("{:?}", boat), "Category(\"BAT\", class 4)");
        let stop = timetable.stop_by_number(1_000_022).unwrap();
        let minutes = [(train, train), (train, boat), (boat, train)].map(|(a, b)| stop.interchange_between(a, b));
        assert_eq!(minutes, [4, 15, 15]);
        let [night, day] =
            [0, 1].map(|at| timetable.services().nth(at).unwrap().runs(both(timetable)[0]).next().unwrap());
        let calls: Vec<_> = night.calls().collect();
        let legs: Vec<_> = calls
            .iter()
            .map(|call| [call.arriving_category(), call.departing_category()].map(|leg| leg.map(|leg| leg.code())))
            .collect();
        assert_eq!(legs, [[None, Some(*b"BAT")], [Some(*b"BAT"), Some(*b"SCH")], [Some(*b"SCH"), None]]);
        let board: Vec<_> = day.calls().collect();
        assert_eq!((calls[1].interchange_to(&board[0]), calls[1].interchange_to(&calls[1])), (Some(15), Some(15)));
        // another stop; the first call of its run; the last call of the other
        assert_eq!((calls[2].interchange_to(&board[0]), calls[0].interchange_to(&board[0])), (None, None));
        assert_eq!(board[1].interchange_to(&board[1]), None);
    });
}

/// Attributes at a call, by the run's day and by the leg that leaves.
#[test]
fn attributes() {
    let timetable = two_days().unwrap();
    timetable.scope(|timetable| {
        let service = timetable.services().next().unwrap();
        // all at each call, and those of the leg that leaves
        let codes = |day: Day<'_>| -> Vec<[String; 2]> {
            let run = service.runs(timetable.day(day.date()).unwrap()).next().unwrap();
            let text = |part: Attribute<'_>| Coding::Utf8.text(&part.code).into_owned();
            let told = |call: Call<'_>| {
                [call.attributes().map(text).collect(), call.departing_attributes().map(text).collect()]
            };
            run.calls().map(told).collect()
        };
        let [one, two] = both(timetable);
        assert_eq!(codes(one), [["FR", "FR"], ["FRK2", "FRK2"], ["FRK2", ""]]);
        // on the second day FR does not hold, and the run ends where K2 begins
        assert_eq!(codes(two), [["", ""], ["K2", ""]]);
    });
}

/// Two operators: the longer of their two times, by the class of the leg that arrives and of the one that leaves.
#[test]
fn across() {
    let (ours, other) = (two_days().unwrap(), loaded("9999999  2  3\n1000022  9 20").unwrap());
    ours.scope(|ours| {
        other.scope(|other| {
            let night = ours.services().next().unwrap().runs(both(ours)[0]).next().unwrap();
            let day = other.services().nth(1).unwrap().runs(both(other)[0]).next().unwrap();
            let (calls, board): (Vec<_>, Vec<_>) = (night.calls().collect(), day.calls().collect());
            assert_eq!(calls[1].interchange_to(&calls[1]), Some(15));
            assert_eq!(
                (calls[1].interchange_across(&board[0]), board[1].interchange_across(&calls[0])),
                (Some(20), Some(3))
            );
            // another stop, no leg that arrives, no leg that leaves
            assert_eq!((calls[2].interchange_across(&board[0]), calls[0].interchange_across(&board[0])), (None, None));
            assert_eq!(calls[1].interchange_across(&board[1]), None);
        });
    });
}

#[test]
fn days() {
    let timetable = two_days().unwrap();
    timetable.scope(|timetable| {
        let field = timetable.bit_fields().next().unwrap();
        let daily = timetable.each_day();
        assert_eq!((timetable.bit_fields().len(), field.key().is_some(), field.day_count()), (1, true, 1));
        let [one, two] = both(timetable);
        assert_eq!([one, two].map(|day| (field.has(day), (!field).has(day))), [(true, false), (false, true)]);
        assert_eq!(((!field).key(), (!field).days().collect::<Vec<_>>()), (None, vec![two]));
        assert_eq!((field | !field, field & !field, daily - field), (daily, daily - daily, !field));
        assert_eq!(timetable.days().collect::<Vec<_>>(), [one, two]);
        assert_eq!((one.day_before(), one.day_after(), two.day_after()), (None, Some(two), None));
        let outside = ["30.12.2025", "02.01.2026", "01.03.1900"].map(|text| timetable.day(date(text)));
        assert_eq!(outside, [None, None, None]);
    });
}

/// What is printed is short, whatever the table's size.
#[test]
fn printed() {
    let timetable = two_days().unwrap();
    let text = format!("{:?}", timetable);
    assert!(text.starts_with("Timetable { first: 31.12.2025, last: 01.01.2026, services: 2, words: "), "{}", text);
    timetable.scope(|timetable| {
        let service = timetable.services().next().unwrap();
        assert_eq!(format!("{:?}", service), "Service { index: 0, number: 7, .. }");
        let run = service.runs(both(timetable)[0]).next().unwrap();
        assert_eq!(format!("{:?}", run), "Run { service: 0, date: 31.12.2025, repeat: 0, .. }");
        assert_eq!(format!("{:?}", timetable.each_day()), "BitField { number: Some(0), days: 2, .. }");
        assert_eq!(format!("{:?}", run.calls().next().unwrap().stop()), "Stop(1000011)");
    });
}

/// No stop, no service: accepted, and for the host to see.
#[test]
fn empty_but_accepted() {
    let files = Files {
        eckdaten: b"31.12.2025\n31.12.2025\nNone",
        bitfeld: b"",
        bahnhof: b"",
        umsteigb: b"9999999  2  3",
        fplan: b"",
        zugart: b"",
    };
    let timetable = Timetable::load(&files).unwrap();
    assert_eq!((timetable.service_count(), timetable.by_number().words().len()), (0, 12));
    assert_eq!(timetable.scope(|timetable| timetable.categories().len()), 0);
}

#[test]
fn refused() {
    let none = Files { eckdaten: b"", bitfeld: b"", bahnhof: b"", umsteigb: b"", fplan: b"", zugart: b"" };
    match Timetable::load(&none) {
        Err(LoadError::Refused(refusal)) => assert_eq!(refusal.offence, Offence::LineMissing),
        other => panic!("{:?}", other),
    }
}
