//! Times of runs, and moments.

use std::cmp::Ordering;
use std::error::Error;
use std::fmt;
use std::hash::{Hash, Hasher};
use std::ops::Add;
use std::str::FromStr;

use crate::date::Date;

const HOUR: u32 = 60;
const DAY: u32 = 24 * HOUR;

/// A time of a run: minutes from the start of the date on which the run *starts*, so that it may pass 24:00. It prints, and is read, as a timetable has it: `25:10`.
///
/// ```
/// use estelunya_planner::Minutes;
///
/// let late = Minutes::new(25, 10);
/// assert_eq!((late.to_string(), late.count()), ("25:10".to_string(), 1_510));
/// assert_eq!((late.days_after(), late.by_clock()), (1, Minutes::new(1, 10)));
/// assert_eq!("25:10".parse(), Ok(late));
/// assert!(late < late + 5);
/// ```
#[derive(Clone, Copy, PartialEq, Eq, PartialOrd, Ord, Hash, Default)]
pub struct Minutes(u32);

impl Minutes {
    /// The time of so many hours and minutes.
    #[must_use]
    pub const fn new(hours: u32, minutes: u32) -> Minutes {
        Minutes(hours.saturating_mul(HOUR).saturating_add(minutes))
    }

    /// How many minutes it is after the start of the date.
    #[must_use]
    pub const fn count(self) -> u32 {
        self.0
    }

    /// How many days after the date it is: 0 on the date itself, 1 on the day after.
    #[must_use]
    pub const fn days_after(self) -> u32 {
        self.0 / DAY
    }

    /// What a clock on the wall shows then: 01:10 for 25:10.
    #[must_use]
    pub const fn by_clock(self) -> Minutes {
        Minutes(self.0 % DAY)
    }

    /// The minutes since an earlier time of the same date; `None` if that is later.
    #[must_use]
    pub fn since(self, earlier: Minutes) -> Option<u32> {
        self.0.checked_sub(earlier.0)
    }
}

impl From<u32> for Minutes {
    fn from(count: u32) -> Minutes {
        Minutes(count)
    }
}

impl From<Minutes> for u32 {
    fn from(time: Minutes) -> u32 {
        time.0
    }
}

/// So many minutes later.
impl Add<u32> for Minutes {
    type Output = Minutes;

    fn add(self, minutes: u32) -> Minutes {
        Minutes(self.0.saturating_add(minutes))
    }
}

impl fmt::Display for Minutes {
    fn fmt(&self, f: &mut fmt::Formatter<'_>) -> fmt::Result {
        f.pad(&format!("{:02}:{:02}", self.0 / HOUR, self.0 % HOUR))
    }
}

impl fmt::Debug for Minutes {
    fn fmt(&self, f: &mut fmt::Formatter<'_>) -> fmt::Result {
        fmt::Display::fmt(self, f)
    }
}

/// A text that is no time.
#[derive(Clone, Copy, Debug, PartialEq, Eq)]
pub struct NoSuchTime;

impl fmt::Display for NoSuchTime {
    fn fmt(&self, f: &mut fmt::Formatter<'_>) -> fmt::Result {
        f.write_str("no time, written HH:MM with hours up to 999")
    }
}

impl Error for NoSuchTime {}

/// Two or three digits of hours, a colon, and two digits of minutes below 60.
impl FromStr for Minutes {
    type Err = NoSuchTime;

    fn from_str(text: &str) -> Result<Minutes, NoSuchTime> {
        let (hours, minutes) = text.split_once(':').ok_or(NoSuchTime)?;
        let digits = |text: &str| text.bytes().all(|byte| byte.is_ascii_digit());
        if !(2..=3).contains(&hours.len()) || minutes.len() != 2 || !digits(hours) || !digits(minutes) {
            return Err(NoSuchTime);
        }
        match (hours.parse(), minutes.parse()) {
            (Ok(hours), Ok(minutes)) if minutes < HOUR => Ok(Minutes::new(hours, minutes)),
            _ => Err(NoSuchTime),
        }
    }
}

/// A moment: a date, and a time from its start that may pass 24:00. 31.12.2025 25:10 and 01.01.2026 01:10 are the same moment, and equal.
///
/// ```
/// use estelunya_planner::{Minutes, Moment};
///
/// # fn main() -> Result<(), Box<dyn std::error::Error>> {
/// let late = Moment::new("31.12.2025".parse()?, Minutes::new(25, 10));
/// assert_eq!((late.to_string(), late.by_clock().to_string()), ("31.12.2025 25:10".to_string(), "01.01.2026 01:10".to_string()));
/// assert_eq!(late, "01.01.2026 01:10".parse()?);
/// let now = "01.01.2026 00:30".parse()?;
/// assert_eq!((late > now, late.since(now), now + 40), (true, Some(40), late));
/// # Ok(())
/// # }
/// ```
#[derive(Clone, Copy)]
pub struct Moment {
    date: Date,
    time: Minutes,
}

impl Moment {
    /// The moment of a time from the start of a date.
    #[must_use]
    pub fn new(date: Date, time: Minutes) -> Moment {
        Moment { date, time }
    }

    /// The date, as it was given: of a run's time the date on which the run starts.
    #[must_use]
    pub fn date(self) -> Date {
        self.date
    }

    /// The time from the start of that date.
    #[must_use]
    pub fn time(self) -> Minutes {
        self.time
    }

    /// The same moment by calendar and clock, its time before 24:00. (After 31.12.2199 there is no date: then as it is.)
    #[must_use]
    pub fn by_clock(self) -> Moment {
        match Date::from_day_number(self.date.day_number() + self.time.days_after()) {
            Some(date) => Moment { date, time: self.time.by_clock() },
            None => self,
        }
    }

    /// The minutes since an earlier moment: in how many it leaves; `None` if that is later.
    #[must_use]
    pub fn since(self, earlier: Moment) -> Option<u32> {
        self.count().checked_sub(earlier.count()).map(|minutes| u32::try_from(minutes).unwrap_or(u32::MAX))
    }

    /// The minutes since 01.01.1900 00:00.
    pub(crate) fn count(self) -> u64 {
        u64::from(self.date.day_number()) * u64::from(DAY) + u64::from(self.time.0)
    }
}

/// So many minutes later.
impl Add<u32> for Moment {
    type Output = Moment;

    fn add(self, minutes: u32) -> Moment {
        Moment { time: self.time + minutes, ..self }
    }
}

impl PartialEq for Moment {
    fn eq(&self, other: &Self) -> bool {
        self.count() == other.count()
    }
}

impl Eq for Moment {}

impl PartialOrd for Moment {
    fn partial_cmp(&self, other: &Self) -> Option<Ordering> {
        Some(self.cmp(other))
    }
}

impl Ord for Moment {
    fn cmp(&self, other: &Self) -> Ordering {
        self.count().cmp(&other.count())
    }
}

impl Hash for Moment {
    fn hash<H: Hasher>(&self, state: &mut H) {
        self.count().hash(state);
    }
}

impl fmt::Display for Moment {
    fn fmt(&self, f: &mut fmt::Formatter<'_>) -> fmt::Result {
        write!(f, "{} {}", self.date, self.time)
    }
}

impl fmt::Debug for Moment {
    fn fmt(&self, f: &mut fmt::Formatter<'_>) -> fmt::Result {
        fmt::Display::fmt(self, f)
    }
}

/// A text that is no moment.
#[derive(Clone, Copy, Debug, PartialEq, Eq)]
pub struct NoSuchMoment;

impl fmt::Display for NoSuchMoment {
    fn fmt(&self, f: &mut fmt::Formatter<'_>) -> fmt::Result {
        f.write_str("no moment, written DD.MM.YYYY HH:MM")
    }
}

impl Error for NoSuchMoment {}

/// A date and a time with one blank between, DD.MM.YYYY HH:MM.
impl FromStr for Moment {
    type Err = NoSuchMoment;

    fn from_str(text: &str) -> Result<Moment, NoSuchMoment> {
        let (date, time) = text.split_once(' ').ok_or(NoSuchMoment)?;
        match (date.parse(), time.parse()) {
            (Ok(date), Ok(time)) => Ok(Moment { date, time }),
            _ => Err(NoSuchMoment),
        }
    }
}
