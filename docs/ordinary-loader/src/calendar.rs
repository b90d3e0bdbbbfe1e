//! Gregorian dates as day numbers.

use crate::lines::{Broken, Line};

const FIRST_YEAR: u32 = 1900;
const LAST_YEAR: u32 = 2199;

/// A date as it is written, whether it exists or not.
#[derive(Clone, Copy, Debug)]
pub struct Date {
    day: u32,
    month: u32,
    year: u32,
}

/// Columns 1-10, DD.MM.YYYY.
pub fn date_in(line: &Line<'_>) -> Result<Date, Broken> {
    let dots = line.columns(3, 3) == b"." && line.columns(6, 6) == b".";
    match (line.digits(1, 2), line.digits(4, 5), line.digits(7, 10)) {
        (Ok(day), Ok(month), Ok(year)) if dots => Ok(Date { day, month, year }),
        _ => Err(Broken(1)),
    }
}

impl Date {
    /// Day, month and year.
    pub fn of([day, month, year]: [u32; 3]) -> Date {
        Date { day, month, year }
    }

    /// "Gregorian dates 01.01.1900 to 31.12.2199, day 0 being the first; any other is "no such date"."
    pub fn day_number(self) -> Option<u32> {
        let Date { day, month, year } = self;
        let exists = (FIRST_YEAR..=LAST_YEAR).contains(&year)
            && (1..=12).contains(&month)
            && (1..=days_in(month, year)).contains(&day);
        if !exists {
            return None;
        }
        let months: u32 = (1..month).map(|month| days_in(month, year)).sum();
        Some(days_before(year) - days_before(FIRST_YEAR) + months + day - 1)
    }
}

fn is_leap(year: u32) -> bool {
    year % 4 == 0 && (year % 100 != 0 || year % 400 == 0)
}

fn days_in(month: u32, year: u32) -> u32 {
    match month {
        4 | 6 | 9 | 11 => 30,
        2 => 28 + u32::from(is_leap(year)),
        _ => 31,
    }
}

/// The days of the years 1 to the one before this.
fn days_before(year: u32) -> u32 {
    let years = year - 1;
    365 * years + years / 4 - years / 100 + years / 400
}
