//! Services, and what their lines say.

use std::fmt;
use std::hash::{Hash, Hasher};

use super::{BitField, Category, Day, Kind, Listed, Minutes, Run, Scope, Stop};
use crate::layout::{
    ADMINISTRATION_AT, ARRIVAL, CALLS_AT, CALL_ADMINISTRATION_AT, CALL_ARRIVAL_AT, CALL_DEPARTURE_AT, CALL_FLAGS_AT,
    CALL_NUMBER_AT, CALL_PLACE_AT, CALL_WORDS, CATEGORIES_AT, CATEGORY_CODE_AT, CATEGORY_FROM_AT, CATEGORY_TO_AT,
    CATEGORY_WORDS, DAYS_AT, DAYS_FIELD_AT, DAYS_FROM_AT, DAYS_TO_AT, DAYS_WORDS, DEPARTURE, EXTRAS_AT, EXTRA_CODE_AT,
    EXTRA_FIELD_AT, EXTRA_FROM_AT, EXTRA_TO_AT, EXTRA_WORDS, NO_ALIGHTING, NO_BOARDING, NUMBER_AT, OPENING_LINE_AT,
    SERVICE_WORDS,
};
use crate::refusal::Refusal;
use crate::row::{six_bytes, three_bytes};

/// A service: a *Z or *T line of FPLAN with the lines that follow it.
#[derive(Clone, Copy)]
#[must_use]
pub struct Service<'t> {
    pub(crate) scope: Scope<'t>,
    pub(crate) index: usize,
}

impl<'t> Service<'t> {
    /// Its number, columns 4-8 of its opening line. Several services may have it.
    #[must_use]
    pub fn number(self) -> u32 {
        self.words()[NUMBER_AT]
    }

    /// Its administration, columns 10-15 of its opening line.
    #[must_use]
    pub fn administration(self) -> [u8; 6] {
        six_bytes(&self.words()[ADMINISTRATION_AT..])
    }

    /// The line of FPLAN that opens it, counted from 1.
    #[must_use]
    pub fn opening_line(self) -> u32 {
        self.words()[OPENING_LINE_AT]
    }

    /// What its opening line says of its runs: repeats and offset of a *Z, running time and density of a *T.
    #[must_use]
    pub fn kind(self) -> Kind {
        Kind::of_head(self.words())
            .unwrap_or_else(|| panic!("the archive accepted service {} without runs", self.index))
    }

    /// Its runs that start on a day, the first first; none if it operates no leg on that day.
    pub fn runs(self, day: Day<'t>) -> impl Listed<Run<'t>> + 't {
        // Lent no rows, a walk says whether the service runs: it would need some. No other refusal comes of an accepted delivery: that is proved.
        let count = match self.scope.indexed().walk(self.index as u32, 0, day.date.into(), &mut []) {
            Ok(_) => 0,
            Err(Refusal::RowsTooShort { .. }) => self.kind().last_repeat() + 1,
            Err(refusal) => panic!("{:?} on {}: {}", self, day, refusal),
        };
        (0..count).map(move |repeat| Run { service: self, day, repeat })
    }

    /// The calls of its whole route, as FPLAN has them. Which of them are served on a date, and when, a [`Run`] says.
    pub fn route(self) -> impl Listed<RouteCall<'t>> + 't {
        let scope = self.scope;
        self.records(0).chunks_exact(CALL_WORDS).map(move |words| RouteCall { scope, words })
    }

    /// Its categories, each with its part of the route, from its *G lines.
    pub fn categories(self) -> impl Listed<CategoryRange<'t>> + 't {
        self.records(1).chunks_exact(CATEGORY_WORDS).map(move |record| CategoryRange {
            category: self.scope.category(three_bytes(record[CATEGORY_CODE_AT])),
            from: record[CATEGORY_FROM_AT] as usize,
            to: record[CATEGORY_TO_AT] as usize,
        })
    }

    /// Its operating days, from its *A VE lines.
    pub fn operating_days(self) -> impl Listed<OperatingDays<'t>> + 't {
        self.records(2).chunks_exact(DAYS_WORDS).map(move |record| OperatingDays {
            field: self.scope.bit_field(record[DAYS_FIELD_AT]),
            from: record[DAYS_FROM_AT] as usize,
            to: record[DAYS_TO_AT] as usize,
        })
    }

    /// Its other attributes, from its *A lines that are not *A VE.
    pub fn attributes(self) -> impl Listed<Attribute<'t>> + 't {
        self.records(3).chunks_exact(EXTRA_WORDS).map(move |record| {
            let [_, first, second] = three_bytes(record[EXTRA_CODE_AT]);
            Attribute {
                code: [first, second],
                field: self.scope.bit_field(record[EXTRA_FIELD_AT]),
                from: record[EXTRA_FROM_AT] as usize,
                to: record[EXTRA_TO_AT] as usize,
            }
        })
    }

    /// How many calls its route has.
    pub(super) fn call_count(self) -> usize {
        self.words()[CALLS_AT] as usize
    }

    fn words(self) -> &'t [u32] {
        self.scope.timetable.service_words(self.index).unwrap_or(&[])
    }

    /// The words of its calls (0), *G (1), *A VE (2) or other *A (3), which stand in this order behind its head.
    pub(super) fn records(self, kind: usize) -> &'t [u32] {
        let words = self.words();
        let lengths = [
            words[CALLS_AT] as usize * CALL_WORDS,
            words[CATEGORIES_AT] as usize * CATEGORY_WORDS,
            words[DAYS_AT] as usize * DAYS_WORDS,
            words[EXTRAS_AT] as usize * EXTRA_WORDS,
        ];
        let start = SERVICE_WORDS + lengths[..kind].iter().sum::<usize>();
        &words[start..][..lengths[kind]]
    }
}

impl fmt::Debug for Service<'_> {
    fn fmt(&self, f: &mut fmt::Formatter<'_>) -> fmt::Result {
        f.debug_struct("Service").field("index", &self.index).field("number", &self.number()).finish_non_exhaustive()
    }
}

/// The same service: of one timetable they always are.
impl PartialEq for Service<'_> {
    fn eq(&self, other: &Self) -> bool {
        self.index == other.index
    }
}

impl Eq for Service<'_> {}

impl Hash for Service<'_> {
    fn hash<H: Hasher>(&self, state: &mut H) {
        self.index.hash(state);
    }
}

/// A category on a part of a service's route.
#[derive(Clone, Copy, Debug, PartialEq, Eq, Hash)]
#[non_exhaustive]
pub struct CategoryRange<'t> {
    /// The category, columns 4-6 of the *G line.
    pub category: Category<'t>,
    /// The index of the first call in [`Service::route`].
    pub from: usize,
    /// The index of the last call.
    pub to: usize,
}

/// The operating days of a part of a service's route.
#[derive(Clone, Copy, Debug, PartialEq, Eq)]
#[non_exhaustive]
pub struct OperatingDays<'t> {
    /// The days.
    pub field: BitField<'t>,
    /// The index of the first call in [`Service::route`].
    pub from: usize,
    /// The index of the last call.
    pub to: usize,
}

/// Another attribute of a part of a service's route. What a code means the delivery's makers say.
#[derive(Clone, Copy, Debug, PartialEq, Eq)]
#[non_exhaustive]
pub struct Attribute<'t> {
    /// Columns 4-5 of the *A line.
    pub code: [u8; 2],
    /// The days on which it holds.
    pub field: BitField<'t>,
    /// The index of the first call in [`Service::route`].
    pub from: usize,
    /// The index of the last call.
    pub to: usize,
}

/// A call of a service's route, as FPLAN has it.
#[derive(Clone, Copy)]
#[must_use]
pub struct RouteCall<'t> {
    scope: Scope<'t>,
    /// Its `CALL_WORDS`.
    words: &'t [u32],
}

impl<'t> RouteCall<'t> {
    /// The stop.
    pub fn stop(self) -> Stop<'t> {
        let place = self.words[CALL_PLACE_AT];
        let number = self.scope.table().stop_number(place);
        self.scope.stop(number.unwrap_or_else(|| panic!("the archive accepted a call at stop {} of fewer", place)))
    }

    /// The arrival of the first run, if the line states one.
    #[must_use]
    pub fn arrival(self) -> Option<Minutes> {
        self.flag(ARRIVAL).then(|| self.words[CALL_ARRIVAL_AT].into())
    }

    /// The departure of the first run, if the line states one.
    #[must_use]
    pub fn departure(self) -> Option<Minutes> {
        self.flag(DEPARTURE).then(|| self.words[CALL_DEPARTURE_AT].into())
    }

    /// Whether alighting is forbidden here.
    #[must_use]
    pub fn no_alighting(self) -> bool {
        self.flag(NO_ALIGHTING)
    }

    /// Whether boarding is forbidden here.
    #[must_use]
    pub fn no_boarding(self) -> bool {
        self.flag(NO_BOARDING)
    }

    /// The service's number that holds from this call on.
    #[must_use]
    pub fn number(self) -> u32 {
        self.words[CALL_NUMBER_AT]
    }

    /// The administration that holds from this call on.
    #[must_use]
    pub fn administration(self) -> [u8; 6] {
        six_bytes(&self.words[CALL_ADMINISTRATION_AT..])
    }

    fn flag(self, flag: u32) -> bool {
        self.words[CALL_FLAGS_AT] & flag == flag
    }
}

impl fmt::Debug for RouteCall<'_> {
    fn fmt(&self, f: &mut fmt::Formatter<'_>) -> fmt::Result {
        f.debug_struct("RouteCall")
            .field("stop", &self.stop().number)
            .field("arrival", &self.arrival())
            .field("departure", &self.departure())
            .finish_non_exhaustive()
    }
}
