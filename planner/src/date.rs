//! Dates that exist.

use std::error::Error;
use std::fmt;
use std::str::FromStr;

/// The first and the last year of which there are dates.
const FIRST_YEAR: u32 = 1900;
const LAST_YEAR: u32 = 2199;

/// A month, so that it is not taken for a day.
#[derive(Clone, Copy, Debug, PartialEq, Eq, PartialOrd, Ord, Hash)]
#[allow(missing_docs)]
pub enum Month {
    January = 1,
    February = 2,
    March = 3,
    April = 4,
    May = 5,
    June = 6,
    July = 7,
    August = 8,
    September = 9,
    October = 10,
    November = 11,
    December = 12,
}

const MONTHS: [Month; 12] = [
    Month::January,
    Month::February,
    Month::March,
    Month::April,
    Month::May,
    Month::June,
    Month::July,
    Month::August,
    Month::September,
    Month::October,
    Month::November,
    Month::December,
];

impl Month {
    /// Its number, 1 to 12.
    #[must_use]
    pub fn number(self) -> u32 {
        self as u32
    }

    /// The month of a number; `None` unless 1 to 12.
    #[must_use]
    pub fn from_number(number: u32) -> Option<Month> {
        MONTHS.iter().copied().find(|month| month.number() == number)
    }

    /// How many days it has in a year.
    #[must_use]
    pub fn days(self, year: u32) -> u32 {
        match self {
            Month::February if is_leap(year) => 29,
            Month::February => 28,
            Month::April | Month::June | Month::September | Month::November => 30,
            _ => 31,
        }
    }
}

fn is_leap(year: u32) -> bool {
    year % 4 == 0 && (year % 100 != 0 || year % 400 == 0)
}

/// Leap years from the year 1 up to a year, that year not counted.
const fn leap_years(year: u32) -> u32 {
    let before = year - 1;
    before / 4 - before / 100 + before / 400
}

/// Days from 01.01.1900 to the start of a year.
fn days_before(year: u32) -> u32 {
    365 * (year - FIRST_YEAR) + leap_years(year) - leap_years(FIRST_YEAR)
}

/// A date from 01.01.1900 to 31.12.2199 that exists. Later dates are greater; it prints, and is read, as the files have it.
///
/// The month has a type of its own and the year is in full, so that a day, a month and a year in the wrong order do not compile, or are no date.
///
/// ```
/// use estelunya_planner::{Date, Month};
///
/// let friday = Date::new(5, Month::December, 2025).unwrap();
/// assert_eq!(friday.to_string(), "05.12.2025");
/// assert_eq!("05.12.2025".parse(), Ok(friday));
/// assert!(friday < friday.day_after().unwrap());
/// assert_eq!(Date::new(2025, Month::December, 5), None);
/// assert_eq!(Date::new(29, Month::February, 2025), None);
/// ```
///
/// ```compile_fail
/// # use estelunya_planner::{Date, Month};
/// let swapped = Date::new(Month::December, 5, 2025);
/// ```
#[derive(Clone, Copy, PartialEq, Eq, PartialOrd, Ord, Hash)]
pub struct Date {
    // In this order, so that the derived order is that of time.
    year: u32,
    month: Month,
    day: u32,
}

impl Date {
    /// The date of a day, a month and a year in full; `None` if there is none.
    #[must_use]
    pub fn new(day: u32, month: Month, year: u32) -> Option<Date> {
        let exists = (FIRST_YEAR..=LAST_YEAR).contains(&year) && (1..=month.days(year)).contains(&day);
        if exists {
            Some(Date { year, month, day })
        } else {
            None
        }
    }

    /// The date so many days after 01.01.1900; `None` if it is after 31.12.2199.
    #[must_use]
    pub fn from_day_number(number: u32) -> Option<Date> {
        // In three hundred years a year of 366 days is too long by less than one of them.
        let mut year = FIRST_YEAR + number / 366;
        if year > LAST_YEAR {
            return None;
        }
        if number >= days_before(year + 1) {
            year += 1;
        }
        let mut left = number - days_before(year);
        for month in MONTHS {
            if left < month.days(year) {
                return Date::new(left + 1, month, year);
            }
            left -= month.days(year);
        }
        None
    }

    /// How many days it is after 01.01.1900.
    #[must_use]
    pub fn day_number(self) -> u32 {
        let months: u32 =
            MONTHS.iter().take_while(|month| **month < self.month).map(|month| month.days(self.year)).sum();
        days_before(self.year) + months + self.day - 1
    }

    /// The day of the month, from 1.
    #[must_use]
    pub fn day(self) -> u32 {
        self.day
    }

    /// The month.
    #[must_use]
    pub fn month(self) -> Month {
        self.month
    }

    /// The year in full.
    #[must_use]
    pub fn year(self) -> u32 {
        self.year
    }

    /// The day after; `None` after 31.12.2199.
    #[must_use]
    pub fn day_after(self) -> Option<Date> {
        Date::from_day_number(self.day_number() + 1)
    }

    /// The day before, on which a run that is still on its way may have started; `None` before 01.01.1900.
    #[must_use]
    pub fn day_before(self) -> Option<Date> {
        self.day_number().checked_sub(1).and_then(Date::from_day_number)
    }
}

impl fmt::Display for Date {
    fn fmt(&self, f: &mut fmt::Formatter<'_>) -> fmt::Result {
        write!(f, "{:02}.{:02}.{}", self.day, self.month.number(), self.year)
    }
}

impl fmt::Debug for Date {
    fn fmt(&self, f: &mut fmt::Formatter<'_>) -> fmt::Result {
        fmt::Display::fmt(self, f)
    }
}

/// A text that is no date.
#[derive(Clone, Copy, Debug, PartialEq, Eq)]
pub struct NoSuchDate;

impl fmt::Display for NoSuchDate {
    fn fmt(&self, f: &mut fmt::Formatter<'_>) -> fmt::Result {
        f.write_str("no date from 01.01.1900 to 31.12.2199, written DD.MM.YYYY")
    }
}

impl Error for NoSuchDate {}

/// Ten bytes, DD.MM.YYYY, as in ECKDATEN.
impl FromStr for Date {
    type Err = NoSuchDate;

    fn from_str(text: &str) -> Result<Date, NoSuchDate> {
        let parts: Vec<&str> = text.split('.').collect();
        match parts[..] {
            [day, month, year] => dated(day, month, year).ok_or(NoSuchDate),
            _ => Err(NoSuchDate),
        }
    }
}

fn dated(day: &str, month: &str, year: &str) -> Option<Date> {
    let month = Month::from_number(digits(month, 2)?)?;
    Date::new(digits(day, 2)?, month, digits(year, 4)?)
}

/// The number that exactly so many digits say.
fn digits(text: &str, count: usize) -> Option<u32> {
    if text.len() == count && text.bytes().all(|byte| byte.is_ascii_digit()) {
        text.parse().ok()
    } else {
        None
    }
}
