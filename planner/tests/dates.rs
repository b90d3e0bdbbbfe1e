//! Dates: each that exists is one of the archive's, in its place; and what is none.

use estelunya_planner::by_number::{self, Table};
use estelunya_planner::layout::{FIRST_DAY_AT, HEADER_WORDS};
use estelunya_planner::{Date, Files, Month, NoSuchDate, Refusal, Timetable};

/// 300 years, 73 of them leap years.
const DAYS: u32 = 300 * 365 + 73;

fn one_day() -> Vec<u32> {
    let files = Files {
        eckdaten: b"01.12.2025\n01.12.2025\nOne day",
        bitfeld: b"",
        bahnhof: b"",
        umsteigb: b"9999999  2  3",
        fplan: b"",
        zugart: b"",
    };
    Timetable::load(&files).unwrap().by_number().words().to_vec()
}

/// A table of one day, which the archive is asked for: it is the day that the crate counts, and the next is outside.
#[test]
fn each() {
    let mut words = one_day();
    assert!(words.len() > HEADER_WORDS);
    let mut before: Option<Date> = None;
    for number in 0..DAYS {
        let date = Date::from_day_number(number).unwrap();
        words[FIRST_DAY_AT] = number;
        assert_eq!(Table::new(&words).day(0, date.into()), Ok(true), "{}", date);
        if let Some(before) = before {
            assert_eq!(Table::new(&words).day(0, before.into()), Err(Refusal::OutsidePeriod));
            assert_eq!((before.day_after(), date.day_before(), before < date), (Some(date), Some(before), true));
        }
        assert_eq!((date.day_number(), date.to_string().parse()), (number, Ok(date)));
        assert_eq!(Date::new(date.day(), date.month(), date.year()), Some(date));
        before = Some(date);
    }
    assert_eq!(before.map(|last| (last.to_string(), last.day_after())), Some(("31.12.2199".to_string(), None)));
    assert_eq!((Date::from_day_number(DAYS), Date::from_day_number(u32::MAX)), (None, None));
    assert_eq!(Date::from_day_number(0).unwrap().day_before(), None);
}

/// What the crate does not make, the archive refuses with 22, and the other way round.
#[test]
fn none() {
    let words = one_day();
    for year in [0, 25, 1899, 1900, 1996, 2000, 2025, 2100, 2199, 2200, u32::MAX] {
        for month in 1..=12 {
            for day in [0, 1, 28, 29, 30, 31, 32, 2025, u32::MAX] {
                let asked = Table::new(&words).day(0, by_number::Date { day, month, year });
                let made = Date::new(day, Month::from_number(month).unwrap(), year);
                assert_eq!(asked == Err(Refusal::NoSuchDate), made.is_none(), "{} {} {}", day, month, year);
            }
        }
    }
    assert_eq!((Month::from_number(0), Month::from_number(13)), (None, None));
    for text in [
        "",
        "5.12.2025",
        "05.12.25",
        "2025-12-05",
        "05/12/2025",
        "05.13.2025",
        "+5.12.2025",
        "05.12.2025 ",
        "05.12.2025.",
        "30.02.2025",
    ] {
        assert_eq!(text.parse::<Date>(), Err(NoSuchDate), "{}", text);
    }
}
