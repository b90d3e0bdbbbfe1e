//! Days of the period, and sets of them.

use std::cmp::Ordering;
use std::fmt;
use std::hash::{Hash, Hasher};
use std::ops::{BitAnd, BitOr, Not, Sub};

use super::Scope;
use crate::by_number;
use crate::date::Date;

/// A day of the timetable's period, as [`Scope::day`] gives it: what is asked of a day is then never refused.
#[derive(Clone, Copy)]
#[must_use]
pub struct Day<'t> {
    pub(super) scope: Scope<'t>,
    pub(super) date: Date,
}

impl<'t> Day<'t> {
    /// Its date.
    #[must_use]
    pub fn date(self) -> Date {
        self.date
    }

    /// The day after; `None` after the last of the period.
    #[must_use]
    pub fn day_after(self) -> Option<Day<'t>> {
        self.date.day_after().and_then(|date| self.scope.day(date))
    }

    /// The day before, on which a run that is still on its way may have started; `None` before the first of the period.
    #[must_use]
    pub fn day_before(self) -> Option<Day<'t>> {
        self.date.day_before().and_then(|date| self.scope.day(date))
    }

    /// How many days it is after the first of the period.
    fn index(self) -> u32 {
        self.date.day_number() - self.scope.period().first.day_number()
    }
}

impl fmt::Display for Day<'_> {
    fn fmt(&self, f: &mut fmt::Formatter<'_>) -> fmt::Result {
        fmt::Display::fmt(&self.date, f)
    }
}

impl fmt::Debug for Day<'_> {
    fn fmt(&self, f: &mut fmt::Formatter<'_>) -> fmt::Result {
        write!(f, "Day({})", self.date)
    }
}

/// The same day: of one timetable they always are.
impl PartialEq for Day<'_> {
    fn eq(&self, other: &Self) -> bool {
        self.date == other.date
    }
}

impl Eq for Day<'_> {}

impl PartialOrd for Day<'_> {
    fn partial_cmp(&self, other: &Self) -> Option<Ordering> {
        Some(self.cmp(other))
    }
}

impl Ord for Day<'_> {
    fn cmp(&self, other: &Self) -> Ordering {
        self.date.cmp(&other.date)
    }
}

impl Hash for Day<'_> {
    fn hash<H: Hasher>(&self, state: &mut H) {
        self.date.hash(state);
    }
}

/// A set of days of the period: one of BITFELD's, or one made of them.
///
/// `a | b` has the days of either, `a & b` those of both, `a - b` those of `a` that `b` has not, and `!a` the other days of the period: each is
/// the archive's answer. Of two timetables they [do not compile](crate::Timetable::scope).
#[derive(Clone, Copy)]
#[must_use]
pub struct BitField<'t> {
    pub(crate) scope: Scope<'t>,
    /// Its number in BITFELD, 0 for each day; `None` if it was made of others.
    pub(crate) number: Option<u32>,
    pub(super) days: by_number::BitField<'t>,
}

impl<'t> BitField<'t> {
    /// Whether it has a day.
    #[must_use]
    pub fn has(self, day: Day<'t>) -> bool {
        match self.number {
            Some(number) => self.scope.runs(number, day),
            // The archive is asked by number; this one was made of its answers.
            None => self.bit(day.index() + 2),
        }
    }

    /// Its days, the first first.
    pub fn days(self) -> impl DoubleEndedIterator<Item = Day<'t>> + 't {
        self.scope.days().filter(move |day| self.bit(day.index() + 2))
    }

    /// How many days it has.
    #[must_use]
    pub fn day_count(self) -> u32 {
        self.days.day_count()
    }

    /// A bit, bit 0 being the highest of the first word; bit d + 2 is day d.
    fn bit(self, bit: u32) -> bool {
        self.days.words()[(bit / 32) as usize] << (bit % 32) >> 31 == 1
    }

    fn made(self, days: by_number::BitField<'t>) -> BitField<'t> {
        BitField { scope: self.scope, number: None, days }
    }
}

impl<'t> BitOr for BitField<'t> {
    type Output = BitField<'t>;

    fn bitor(self, other: BitField<'t>) -> BitField<'t> {
        self.made(self.days | other.days)
    }
}

impl<'t> BitAnd for BitField<'t> {
    type Output = BitField<'t>;

    fn bitand(self, other: BitField<'t>) -> BitField<'t> {
        self.made(self.days & other.days)
    }
}

impl<'t> Sub for BitField<'t> {
    type Output = BitField<'t>;

    fn sub(self, other: BitField<'t>) -> BitField<'t> {
        self.made(self.days - other.days)
    }
}

impl<'t> Not for BitField<'t> {
    type Output = BitField<'t>;

    fn not(self) -> BitField<'t> {
        self.made(!self.days)
    }
}

impl fmt::Debug for BitField<'_> {
    fn fmt(&self, f: &mut fmt::Formatter<'_>) -> fmt::Result {
        f.debug_struct("BitField")
            .field("number", &self.number)
            .field("days", &self.day_count())
            .finish_non_exhaustive()
    }
}

/// The same days.
impl PartialEq for BitField<'_> {
    fn eq(&self, other: &Self) -> bool {
        self.days == other.days
    }
}

impl Eq for BitField<'_> {}
