//! "Period and days": Gregorian dates from 01.01.1900, which is day 0, to 31.12.2199.

/// The number of 31.12.2199.
pub const LAST_DAY: u32 = 109_572;

/// A period has 1 to 380 days.
pub const MOST_PERIOD_DAYS: u32 = 380;

const FIRST_YEAR: u32 = 1900;
const LAST_YEAR: u32 = 2199;

fn leap(year: u32) -> bool {
    (year % 4 == 0 && year % 100 != 0) || year % 400 == 0
}

fn month_length(month: u32, year: u32) -> u32 {
    match month {
        4 | 6 | 9 | 11 => 30,
        2 if leap(year) => 29,
        2 => 28,
        _ => 31,
    }
}

/// Days from 01.03.0000 to the date, by the usual count of years that begin in March.
fn days_since_march_0(day: u32, month: u32, year: u32) -> u32 {
    let (march_year, march_month) = if month > 2 { (year, month - 3) } else { (year - 1, month + 9) };
    let leap_days = march_year / 4 - march_year / 100 + march_year / 400;
    let days_before_month = (153 * march_month + 2) / 5;
    365 * march_year + leap_days + days_before_month + day - 1
}

/// "Gregorian dates 01.01.1900 to 31.12.2199, day 0 being the first; any other is "no such date"."
pub fn day_number(day: u32, month: u32, year: u32) -> Option<u32> {
    if !(FIRST_YEAR..=LAST_YEAR).contains(&year) || !(1..=12).contains(&month) {
        return None;
    }
    if !(1..=month_length(month, year)).contains(&day) {
        return None;
    }
    Some(days_since_march_0(day, month, year) - days_since_march_0(1, 1, FIRST_YEAR))
}

/// The days of the period from one day to another, both inside; `None` if the end is before the start or there are
/// over 380. "A period of n days has 1 to 380."
pub fn period(start: u32, end: u32) -> Option<u32> {
    let days = end.checked_sub(start)?.checked_add(1)?;
    if days <= MOST_PERIOD_DAYS {
        Some(days)
    } else {
        None
    }
}
