//! Stops: their names, what leaves there, and how long it takes to change.

use std::borrow::Cow;
use std::fmt;
use std::hash::{Hash, Hasher};
use std::ops::RangeInclusive;

use super::{
    Call, Category, Class, Coding, Day, Departures, Language, Listed, Minutes, Moment, NameType, Run, Scope, Service,
};
use crate::by_number;

/// A stop.
#[derive(Clone, Copy)]
#[must_use]
pub struct Stop<'t> {
    pub(crate) scope: Scope<'t>,
    pub(crate) number: u32,
}

impl<'t> Stop<'t> {
    /// Its number.
    #[must_use]
    pub fn number(self) -> u32 {
        self.number
    }

    /// Its name in a language and of a type, as a part of BAHNHOF: the first name with a pattern that fits both, else the first name. It is in the
    /// delivery's own coding, and has to be copied to outlive the scope.
    #[must_use]
    pub fn name(self, language: Language, kind: NameType) -> &'t [u8] {
        let (bahnhof, asked) = (self.scope.timetable.bahnhof(), (language.number(), kind.number()));
        let answer = self.scope.indexed().stop_name(self.number, bahnhof, asked.0, asked.1);
        // A stop of the table, its own BAHNHOF, and a language and type of the list are never refused.
        answer.unwrap_or_else(|refusal| panic!("{:?}: {}", self, refusal))
    }

    /// The same as text, by the coding that the delivery's makers use. Any bytes have a text.
    ///
    /// ```
    /// # fn main() -> Result<(), Box<dyn std::error::Error>> {
    /// # let timetable = estelunya_planner::Timetable::read("../crates/ferry/data")?;
    /// use estelunya_planner::{Coding, Language, NameType};
    ///
    /// timetable.scope(|timetable| {
    ///     let quay = timetable.stop_by_number(1_000_022).unwrap();
    ///     assert_eq!(quay.name_text(Language::English, NameType::ANY, Coding::Latin1), "Quay B");
    /// });
    /// # Ok(())
    /// # }
    /// ```
    #[must_use]
    pub fn name_text(self, language: Language, kind: NameType, coding: Coding) -> Cow<'t, str> {
        coding.text(self.name(language, kind))
    }

    /// What leaves here from a moment on, by calendar and clock, the next first: of runs that start on that day or later, and of those that started before and are on their way, each by its own date. For
    /// the next n take so many. It looks ahead as far as it is asked to, and costs as much as the calls here and what it gives.
    ///
    /// ```
    /// # fn main() -> Result<(), Box<dyn std::error::Error>> {
    /// # let timetable = estelunya_planner::Timetable::read("examples/night")?;
    /// use estelunya_planner::Moment;
    ///
    /// let now: Moment = "31.12.2025 23:40".parse()?;
    /// timetable.scope(|timetable| {
    ///     let market = timetable.stop_by_number(1_000_022).unwrap();
    ///     let next: Vec<String> = market.departures(now).take(3).map(|departure| departure.moment().to_string()).collect();
    ///     // by the clock 23:50, 00:10 and 00:16: the second is still last night's
    ///     assert_eq!(next, ["31.12.2025 23:50", "31.12.2025 24:10", "01.01.2026 00:16"]);
    /// });
    /// # Ok(())
    /// # }
    /// ```
    pub fn departures(self, from: Moment) -> Departures<'t> {
        Departures::new(self, from)
    }

    /// A departure board: every departure from here of runs that start on a day, where boarding is allowed and the time is one of those given, counted from the start of that day: by time, each once. It costs as
    /// much as the calls here and what it lists. Last night's runs are on the board of the day before, after 24:00: [`Stop::departures`] has both.
    ///
    /// # Panics
    ///
    /// If there is no memory for so many departures: a service on call can have 599,941 runs a day.
    ///
    /// ```
    /// # fn main() -> Result<(), Box<dyn std::error::Error>> {
    /// # let timetable = estelunya_planner::Timetable::read("../crates/ferry/data")?;
    /// # let friday = "05.12.2025".parse()?;
    /// use estelunya_planner::Minutes;
    ///
    /// timetable.scope(|timetable| {
    ///     let (friday, quay) = (timetable.day(friday).unwrap(), timetable.stop_by_number(1_000_022).unwrap());
    ///     let board: Vec<_> = quay.board(friday, Minutes::new(8, 0)..=Minutes::new(9, 0)).collect();
    ///     // it calls there twice, and the second time its run ends
    ///     assert_eq!(board.len(), 1);
    ///     assert_eq!((board[0].time(), board[0].service().number(), board[0].place()), (Minutes::new(8, 12), 42, 1));
    /// });
    /// # Ok(())
    /// # }
    /// ```
    pub fn board(self, day: Day<'t>, times: RangeInclusive<Minutes>) -> impl Listed<Departure<'t>> + 't {
        let (scope, (first, last)) = (self.scope, times.into_inner());
        // A stop of the table and a day of its period are never refused.
        let board = match scope.indexed().board(self.number, day.date.into(), first.count()..=last.count()) {
            Ok(board) => board,
            Err(refusal) => panic!("{:?} on {}: {}", self, day, refusal),
        };
        (0..board.len()).map(move |at| {
            let by_number::Departure { time, service, repeat, place } = board.at(at);
            let run = Run { service: Service { scope, index: service as usize }, day, repeat };
            Departure { run, place: place as usize, time: time.into() }
        })
    }

    /// All its names with their patterns, as they stand from column 13 of its line on.
    #[must_use]
    pub fn name_field(self) -> &'t [u8] {
        self.scope.indexed().name_field(self.number, self.scope.timetable.bahnhof()).unwrap_or(b"")
    }

    /// The minutes to change here from a service of one class to a service of another: see
    /// [what a class is](crate::a_day_in_the_host#what-a-class-is).
    #[must_use]
    pub fn interchange(self, arriving: Class, departing: Class) -> u32 {
        let answer = self.scope.indexed().interchange(self.number, arriving.number(), departing.number());
        // A stop of the table and classes up to 13 are never refused.
        answer.unwrap_or_else(|refusal| panic!("{:?}, {} to {}: {}", self, arriving, departing, refusal))
    }

    /// The minutes to change here from a service of one category to a service of another, by their classes.
    ///
    /// ```
    /// # fn main() -> Result<(), Box<dyn std::error::Error>> {
    /// # let timetable = estelunya_planner::Timetable::read("../crates/ferry/data")?;
    /// timetable.scope(|timetable| {
    ///     let (quay, boat) = (timetable.stops().next().unwrap(), timetable.category_by_code(*b"BAT").unwrap());
    ///     assert_eq!((boat.class().number(), quay.interchange_between(boat, boat)), (4, 3));
    /// });
    /// # Ok(())
    /// # }
    /// ```
    #[must_use]
    pub fn interchange_between(self, arriving: Category<'t>, departing: Category<'t>) -> u32 {
        let answer = self.scope.indexed().interchange_between(self.number, arriving.code, departing.code);
        // A stop and categories of the table are never refused.
        answer.unwrap_or_else(|refusal| panic!("{:?}, {:?} to {:?}: {}", self, arriving, departing, refusal))
    }
}

impl fmt::Debug for Stop<'_> {
    fn fmt(&self, f: &mut fmt::Formatter<'_>) -> fmt::Result {
        write!(f, "Stop({})", self.number)
    }
}

/// The same stop: a timetable has one of a number.
impl PartialEq for Stop<'_> {
    fn eq(&self, other: &Self) -> bool {
        self.number == other.number
    }
}

impl Eq for Stop<'_> {}

impl Hash for Stop<'_> {
    fn hash<H: Hasher>(&self, state: &mut H) {
        self.number.hash(state);
    }
}

/// A departure of a run from a stop, as a board lists it.
#[derive(Clone, Copy, PartialEq, Eq, Hash)]
#[must_use]
pub struct Departure<'t> {
    run: Run<'t>,
    place: usize,
    time: Minutes,
}

impl<'t> Departure<'t> {
    /// The run that leaves.
    pub fn run(self) -> Run<'t> {
        self.run
    }

    /// Its service.
    pub fn service(self) -> Service<'t> {
        self.run.service
    }

    /// When it leaves, from the start of the run's date; it may pass 24:00.
    #[must_use]
    pub fn time(self) -> Minutes {
        self.time
    }

    /// When it leaves: the run's date, and that time. [`Moment::by_clock`] is what a screen shows.
    #[must_use]
    pub fn moment(self) -> Moment {
        self.run.moment(self.time)
    }

    /// The place of the call in [`Service::route`], from 0.
    #[must_use]
    pub fn place(self) -> usize {
        self.place
    }

    /// By what those of one moment are ordered: date, service, repeat, place.
    pub(super) fn order(self) -> impl Ord {
        (self.run.day.date, self.run.service.index, self.run.repeat, self.place)
    }

    /// The call at which it leaves, with the number, the administration and the category that hold from there on. It walks the run.
    pub fn call(self) -> Call<'t> {
        let mut calls = self.run.calls();
        // Each departure is a row of its run's walk: that is proved (`departure-row`).
        calls.find(|call| call.place == self.place).unwrap_or_else(|| panic!("{:?} is no call of its run", self))
    }
}

impl fmt::Debug for Departure<'_> {
    fn fmt(&self, f: &mut fmt::Formatter<'_>) -> fmt::Result {
        f.debug_struct("Departure")
            .field("time", &self.time)
            .field("run", &self.run)
            .field("place", &self.place)
            .finish_non_exhaustive()
    }
}

/// A record of UMSTEIGB.
#[derive(Clone, Copy, Debug, PartialEq, Eq)]
#[non_exhaustive]
pub struct Interchange<'t> {
    /// The stop; `None` in the record of every stop without its own.
    pub stop: Option<Stop<'t>>,
    /// Minutes for two classes that are both 0, 1 or 2, and for all others.
    pub times: [u32; 2],
}
