//! The period of ECKDATEN, and its dates.

use estelunya_planner::{Date, Month, Period};

use super::lines::{column, digits, line};

/// Day, month and year as a line states them, whether there is such a date or not.
pub type Stated = (u32, u32, u32);

/// What columns 1-10 state.
pub fn stated(line: &[u8]) -> Option<Stated> {
    let points = column(line, 3) == b'.' && column(line, 6) == b'.';
    let stated = (digits(line, 1, 2)?, digits(line, 4, 5)?, digits(line, 7, 10)?);
    points.then_some(stated)
}

/// The date that is stated, if there is such a date.
pub fn existing((day, month, year): Stated) -> Option<Date> {
    Date::new(day, Month::from_number(month)?, year)
}

/// What is wrong with a date by itself, and in which columns.
pub fn wrong((day, month, year): Stated) -> Option<((usize, usize), String)> {
    if !(1900..=2199).contains(&year) {
        return Some(((7, 10), format!("the year {} is not 1900 to 2199", year)));
    }
    let length = match Month::from_number(month) {
        Some(month) => month.days(year),
        None => return Some(((4, 5), format!("there is no month {:02}", month))),
    };
    (!(1..=length).contains(&day))
        .then(|| ((1, 2), format!("there is no day {:02}: the month {:02}.{} has {} days", day, month, year, length)))
}

/// The period, if ECKDATEN states one.
pub fn period(eckdaten: &[u8]) -> Option<Period> {
    let [first, last] = [1, 2].map(|number| line(eckdaten, number).and_then(stated).and_then(existing));
    Period::new(first?, last?)
}
