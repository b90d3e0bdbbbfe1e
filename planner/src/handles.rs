//! Handles of what a timetable holds. Each borrows its timetable and carries the mark of one scope, so that handles of two never meet.
//!
//! A question that the archive has is asked of it. What else the table holds is read from the places that document 01's section "Table" gives it.

mod category;
mod days;
mod departures;
mod run;
mod service;
mod stop;

use std::fmt;
use std::marker::PhantomData;

pub use category::{Category, Class};
pub use days::{BitField, Day};
pub use departures::Departures;
pub use run::{Call, Run};
pub use service::{Attribute, CategoryRange, OperatingDays, RouteCall, Service};
pub use stop::{Departure, Interchange, Stop};

use crate::by_number::{Indexed, Table};
use crate::date::Date;
use crate::keys::Load;
use crate::kind::Kind;
use crate::layout::{
    BIT_FIELD_BITS_AT, BIT_FIELD_NUMBER_AT, CLASS_AT, CLASS_CODE_AT, EVERY_STOP, INTERCHANGE_FIRST_TIME_AT,
    INTERCHANGE_SECOND_TIME_AT, INTERCHANGE_STOP_AT, STOP_NUMBER_AT,
};
use crate::minutes::{Minutes, Moment};
use crate::names::{Coding, Language, NameType};
use crate::row::category_word;
use crate::timetable::{Period, Timetable};

/// Items in the order of their file, from either end, with their number known.
pub trait Listed<T>: ExactSizeIterator<Item = T> + DoubleEndedIterator {}

impl<T, I: ExactSizeIterator<Item = T> + DoubleEndedIterator> Listed<T> for I {}

/// A [`Timetable`] inside a scope: what a closure of [`Timetable::scope`] is given. Copy it as you like; it and its handles may go to other threads that end
/// inside the closure ([`std::thread::scope`]).
#[derive(Clone, Copy)]
pub struct Scope<'t> {
    timetable: &'t Timetable,
    /// No lifetime of another scope is longer or shorter than this one: they do not meet.
    mark: PhantomData<fn(&'t ()) -> &'t ()>,
}

impl<'t> Scope<'t> {
    pub(crate) fn new(timetable: &'t Timetable) -> Scope<'t> {
        Scope { timetable, mark: PhantomData }
    }

    fn table(self) -> Table<'t> {
        self.timetable.by_number()
    }

    /// The number of its load.
    pub(crate) fn load(self) -> Load {
        self.timetable.load_number()
    }

    pub(crate) fn indexed(self) -> Indexed<'t> {
        self.timetable.indexed()
    }

    /// The period of the delivery.
    #[must_use]
    pub fn period(self) -> Period {
        self.timetable.period()
    }

    /// The day of the period that a date is, which is what questions about a date take; `None` if the date is outside the period.
    ///
    /// A day of another timetable, whose period may be another, does not compile in a question to this one:
    ///
    /// ```compile_fail,E0521
    /// # fn main() -> Result<(), Box<dyn std::error::Error>> {
    /// # let (old, new) = (estelunya_planner::Timetable::read("../crates/ferry/data")?, estelunya_planner::Timetable::read("../crates/ferry/data")?);
    /// # let friday = "05.12.2025".parse()?;
    /// old.scope(|old| new.scope(|new| {
    ///     let day = old.day(friday).unwrap();
    ///     new.services().next().unwrap().runs(day).len()
    /// }));
    /// # Ok(())
    /// # }
    /// ```
    #[must_use]
    pub fn day(self, date: Date) -> Option<Day<'t>> {
        Some(date).filter(|date| self.period().contains(*date)).map(|date| Day { scope: self, date })
    }

    /// All days of the period.
    pub fn days(self) -> impl Listed<Day<'t>> + 't {
        let first = self.period().first.day_number();
        (0..self.period().day_count()).map(move |at| match Date::from_day_number(first + at) {
            Some(date) => Day { scope: self, date },
            None => panic!("the archive accepted a period with day {}", first + at),
        })
    }

    /// All services, in FPLAN's order.
    pub fn services(self) -> impl Listed<Service<'t>> + 't {
        (0..self.timetable.service_count()).map(move |index| Service { scope: self, index })
    }

    /// All stops, in BAHNHOF's order.
    pub fn stops(self) -> impl Listed<Stop<'t>> + 't {
        self.table().stop_records().map(move |record| self.stop(record[STOP_NUMBER_AT]))
    }

    /// All bit fields, in BITFELD's order.
    pub fn bit_fields(self) -> impl Listed<BitField<'t>> + 't {
        self.table()
            .bit_field_records()
            .map(move |record| self.days_of(record[BIT_FIELD_NUMBER_AT], &record[BIT_FIELD_BITS_AT..]))
    }

    /// All categories that a service may have, in ZUGART's order.
    pub fn categories(self) -> impl Listed<Category<'t>> + 't {
        self.table().class_records().map(move |record| Category {
            scope: self,
            code: record[CLASS_CODE_AT],
            class: record[CLASS_AT],
        })
    }

    /// All interchange records, in UMSTEIGB's order: the first is that of every stop without its own.
    pub fn interchanges(self) -> impl Listed<Interchange<'t>> + 't {
        self.table().interchange_records().map(move |record| Interchange {
            stop: Some(record[INTERCHANGE_STOP_AT]).filter(|stop| *stop != EVERY_STOP).map(|stop| self.stop(stop)),
            times: [record[INTERCHANGE_FIRST_TIME_AT], record[INTERCHANGE_SECOND_TIME_AT]],
        })
    }

    /// Each day of the period: bit field 000000.
    pub fn each_day(self) -> BitField<'t> {
        self.bit_field(0)
    }

    /// The service with this index in FPLAN's order, from 0.
    pub(crate) fn service_by_index(self, index: usize) -> Option<Service<'t>> {
        self.timetable.service_words(index).map(|_| Service { scope: self, index })
    }

    /// The stop with this number.
    #[must_use]
    pub fn stop_by_number(self, number: u32) -> Option<Stop<'t>> {
        Some(number).filter(|number| self.indexed().has_stop(*number)).map(|number| self.stop(number))
    }

    /// The bit field with this number; 0 is each day.
    pub(crate) fn bit_field_by_number(self, number: u32) -> Option<BitField<'t>> {
        match number {
            0 => self.table().bit_field(0).ok().map(|days| BitField { scope: self, number: Some(0), days }),
            _ => self.indexed().bit_field_words(number).map(|bits| self.days_of(number, bits)),
        }
    }

    /// The category with this code, three bytes as they stand in ZUGART.
    #[must_use]
    pub fn category_by_code(self, code: [u8; 3]) -> Option<Category<'t>> {
        let code = category_word(code);
        self.indexed().class_of(code).map(|class| Category { scope: self, code, class })
    }

    /// A category that the table names. That each category of a service is in ZUGART is proved.
    fn category(self, code: [u8; 3]) -> Category<'t> {
        self.category_by_code(code).unwrap_or_else(|| panic!("the timetable does not list category {:?}", code))
    }

    /// A bit field of the table, by the words of its bits: that they have the frame of the period is proved.
    fn days_of(self, number: u32, bits: &[u32]) -> BitField<'t> {
        match self.table().bit_field_from(bits) {
            Ok(days) => BitField { scope: self, number: Some(number), days },
            Err(refusal) => panic!("the archive accepted bit field {}: {}", number, refusal),
        }
    }

    /// A bit field that the table names.
    fn bit_field(self, number: u32) -> BitField<'t> {
        self.bit_field_by_number(number).unwrap_or_else(|| panic!("the timetable does not list bit field {}", number))
    }

    /// Whether a bit field that the table names has a day.
    fn runs(self, field: u32, day: Day<'t>) -> bool {
        let answer = self.indexed().day(field, day.date.into());
        // A day of the period and a field of the table are never refused.
        answer.unwrap_or_else(|refusal| panic!("bit field {} on {}: {}", field, day, refusal))
    }

    /// A stop that the table names.
    fn stop(self, number: u32) -> Stop<'t> {
        Stop { scope: self, number }
    }
}

/// The same timetable: no other has this mark.
impl PartialEq for Scope<'_> {
    fn eq(&self, other: &Self) -> bool {
        std::ptr::eq(self.timetable, other.timetable)
    }
}

impl Eq for Scope<'_> {}

impl fmt::Debug for Scope<'_> {
    fn fmt(&self, f: &mut fmt::Formatter<'_>) -> fmt::Result {
        fmt::Debug::fmt(self.timetable, f)
    }
}
