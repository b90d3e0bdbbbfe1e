//! Runs of services, and their calls.

use std::fmt;
use std::hash::{Hash, Hasher};

use super::{Attribute, Category, Day, Listed, Minutes, Moment, Scope, Service, Stop};
use crate::by_number;
use crate::date::Date;
use crate::layout::{DAYS_FIELD_AT, DAYS_FROM_AT, DAYS_TO_AT, DAYS_WORDS, ROW_CATEGORY_AT, ROW_WORDS};
use crate::row::{three_bytes, Row};

/// A run of a service that starts on a date.
#[derive(Clone, Copy)]
#[must_use]
pub struct Run<'t> {
    pub(super) service: Service<'t>,
    pub(super) day: Day<'t>,
    pub(crate) repeat: u32,
}

impl<'t> Run<'t> {
    /// Its service.
    pub fn service(self) -> Service<'t> {
        self.service
    }

    /// The day on which it starts; it may end on the next.
    pub fn day(self) -> Day<'t> {
        self.day
    }

    /// The date of that day.
    #[must_use]
    pub fn date(self) -> Date {
        self.day.date
    }

    /// The moment of one of its times, which count from the start of its date.
    #[must_use]
    pub fn moment(self, time: Minutes) -> Moment {
        Moment::new(self.date(), time)
    }

    /// Its number among the service's runs of that date, from 0.
    #[must_use]
    pub fn repeat(self) -> u32 {
        self.repeat
    }

    /// The minutes that all its times are later than those of the first run.
    #[must_use]
    pub fn late(self) -> u32 {
        self.service.kind().late(self.repeat).unwrap_or(0)
    }

    /// Walks it: the calls of that day's stretch, two or more.
    pub fn calls(self) -> impl Listed<Call<'t>> + 't {
        let mut words = vec![0; self.service.call_count() * ROW_WORDS];
        // That no run of an accepted delivery is refused is proved.
        let (service, indexed) = (self.service.index as u32, self.service.scope.indexed());
        let count = match indexed.walk(service, self.repeat, self.date().into(), &mut words) {
            Ok(by_number::Walk::Rows(rows)) => rows.len(),
            other => panic!("the archive walked {:?} to {:?}", self, other),
        };
        let first = self.first_place();
        (0..count).map(move |at| {
            let mut row = [0; ROW_WORDS];
            row.copy_from_slice(&words[at * ROW_WORDS..][..ROW_WORDS]);
            // The leg that arrives is the one that leaves the call before.
            let before = at.checked_sub(1).map(|before| words[before * ROW_WORDS + ROW_CATEGORY_AT]);
            Call { run: self, place: first + at, words: row, arriving: before.map(three_bytes) }
        })
    }

    /// The index of its service and its number, as the archive takes them.
    pub(crate) fn bare(self) -> (u32, u32) {
        (self.service.index as u32, self.repeat)
    }

    /// The place in the route at which that day's stretch begins: the first leg that operates. In an accepted delivery each leg has one range of operating days.
    fn first_place(self) -> usize {
        let operates = |record: &&[u32]| {
            record[DAYS_FROM_AT] < record[DAYS_TO_AT] && self.service.scope.runs(record[DAYS_FIELD_AT], self.day)
        };
        let ranges = self.service.records(2).chunks_exact(DAYS_WORDS).filter(operates);
        ranges.map(|record| record[DAYS_FROM_AT] as usize).min().unwrap_or(0)
    }
}

impl fmt::Debug for Run<'_> {
    fn fmt(&self, f: &mut fmt::Formatter<'_>) -> fmt::Result {
        f.debug_struct("Run")
            .field("service", &self.service.index)
            .field("date", &self.date())
            .field("repeat", &self.repeat)
            .finish_non_exhaustive()
    }
}

impl PartialEq for Run<'_> {
    fn eq(&self, other: &Self) -> bool {
        (self.service, self.day, self.repeat) == (other.service, other.day, other.repeat)
    }
}

impl Eq for Run<'_> {}

impl Hash for Run<'_> {
    fn hash<H: Hasher>(&self, state: &mut H) {
        (self.service, self.day, self.repeat).hash(state);
    }
}

/// A call of a run. Its times count from the start of the run's date, and may pass 24:00.
#[derive(Clone, Copy)]
#[must_use]
pub struct Call<'t> {
    run: Run<'t>,
    pub(super) place: usize,
    words: [u32; ROW_WORDS],
    arriving: Option<[u8; 3]>,
}

impl<'t> Call<'t> {
    /// The run that calls.
    pub fn run(&self) -> Run<'t> {
        self.run
    }

    /// Its place in [`Service::route`], from 0; the first call of a day's stretch may have a later one. A [`Part`](crate::Part) of a connection, and the ends of
    /// ranges, are such places.
    #[doc(alias = "route_index")]
    #[must_use]
    pub fn place(&self) -> usize {
        self.place
    }

    /// The stop that is called at.
    pub fn stop(&self) -> Stop<'t> {
        self.scope().stop(self.row().stop())
    }

    /// The arrival; `None` at the first call.
    #[must_use]
    pub fn arrival(&self) -> Option<Minutes> {
        self.row().arrival().map(Minutes::from)
    }

    /// The departure; `None` at the last call.
    #[must_use]
    pub fn departure(&self) -> Option<Minutes> {
        self.row().departure().map(Minutes::from)
    }

    /// Whether there is an arrival at which alighting is not forbidden.
    #[must_use]
    pub fn may_alight(&self) -> bool {
        self.row().may_alight()
    }

    /// Whether there is a departure at which boarding is not forbidden.
    #[must_use]
    pub fn may_board(&self) -> bool {
        self.row().may_board()
    }

    /// The service's number that holds from this call on: see [`Row::number`].
    #[must_use]
    pub fn number(&self) -> u32 {
        self.row().number()
    }

    /// The administration that holds from this call on.
    #[must_use]
    pub fn administration(&self) -> [u8; 6] {
        self.row().administration()
    }

    /// The category of the leg that leaves; `None` at the last call.
    #[must_use]
    pub fn departing_category(&self) -> Option<Category<'t>> {
        self.row().category().map(|code| self.scope().category(code))
    }

    /// The category of the leg that arrives; `None` at the first call.
    #[must_use]
    pub fn arriving_category(&self) -> Option<Category<'t>> {
        self.arriving.map(|code| self.scope().category(code))
    }

    /// The attributes of the service that hold at this call on the run's day: those whose range has it, ends included.
    pub fn attributes(&self) -> impl Iterator<Item = Attribute<'t>> + 't {
        let (place, day) = (self.place, self.run.day);
        let holds = move |part: &Attribute<'t>| part.from <= place && place <= part.to && part.field.has(day);
        self.run.service.attributes().filter(holds)
    }

    /// Those of them that hold for the leg that leaves: what one who boards here may count on. None at the end of a range.
    pub fn departing_attributes(&self) -> impl Iterator<Item = Attribute<'t>> + 't {
        let (place, leaves) = (self.place, self.departure().is_some());
        self.attributes().filter(move |part| leaves && place < part.to)
    }

    /// The minutes to change from the run of this call to the run of another call at the same stop, by the categories of the leg that arrives here and of the one
    /// that leaves there. `None` if it is another stop, or this is the first call of its run, or the other is the last of its own. Whether one may alight and
    /// board, and whether there is so much time, the calls say.
    ///
    /// A call of another operator's timetable does not compile here: there is [`Call::interchange_across`] for it.
    ///
    /// ```compile_fail,E0521
    /// # fn main() -> Result<(), Box<dyn std::error::Error>> {
    /// # use estelunya_planner::Timetable;
    /// # let (ours, theirs) = (Timetable::read("../crates/ferry/data")?, Timetable::read("../crates/ferry/data")?);
    /// # let friday = "05.12.2025".parse()?;
    /// ours.scope(|ours| theirs.scope(|theirs| {
    ///     let arriving = ours.services().next().unwrap().runs(ours.day(friday).unwrap()).next().unwrap();
    ///     let departing = theirs.services().next().unwrap().runs(theirs.day(friday).unwrap()).next().unwrap();
    ///     arriving.calls().last().unwrap().interchange_to(&departing.calls().nth(1).unwrap())
    /// }));
    /// # Ok(())
    /// # }
    /// ```
    #[must_use]
    pub fn interchange_to(&self, departing: &Call<'t>) -> Option<u32> {
        let (arriving, leaving) = (self.arriving_category()?, departing.departing_category()?);
        if self.stop() != departing.stop() {
            return None;
        }
        Some(self.stop().interchange_between(arriving, leaving))
    }

    /// The minutes to change from the run of this call to the run of a call in another operator's timetable, at the stop of the same number. Each delivery has its own
    /// UMSTEIGB, and neither knows the other's services; classes are the standard's, the same in both. So both are asked, by the class of the leg that arrives here and of the one that leaves there, and the longer time
    /// holds: nobody is promised a change that one of the two operators takes for too short. `None` as for [`Call::interchange_to`].
    ///
    /// That the two operators mean the same place by this number is for the host to know. It is the only question that takes handles of two timetables.
    ///
    /// ```
    /// # fn main() -> Result<(), Box<dyn std::error::Error>> {
    /// # use estelunya_planner::Timetable;
    /// # let (ours, theirs) = (Timetable::read("../crates/ferry/data")?, Timetable::read("../crates/ferry/data")?);
    /// # let friday = "05.12.2025".parse()?;
    /// ours.scope(|ours| theirs.scope(|theirs| {
    ///     let arriving = ours.services().next().unwrap().runs(ours.day(friday).unwrap()).next().unwrap();
    ///     let departing = theirs.services().next().unwrap().runs(theirs.day(friday).unwrap()).next().unwrap();
    ///     let (last, second) = (arriving.calls().last().unwrap(), departing.calls().nth(1).unwrap());
    ///     assert_eq!(last.interchange_across(&second), Some(3));
    /// }));
    /// # Ok(())
    /// # }
    /// ```
    #[must_use]
    pub fn interchange_across(&self, departing: &Call<'_>) -> Option<u32> {
        let (arriving, leaving) = (self.arriving_category()?.class(), departing.departing_category()?.class());
        if self.stop().number() != departing.stop().number() {
            return None;
        }
        Some(self.stop().interchange(arriving, leaving).max(departing.stop().interchange(arriving, leaving)))
    }

    /// The row as the walk gave it.
    #[must_use]
    pub fn row(&self) -> Row<'_> {
        Row::new(&self.words)
    }

    fn scope(&self) -> Scope<'t> {
        self.run.service.scope
    }
}

impl fmt::Debug for Call<'_> {
    fn fmt(&self, f: &mut fmt::Formatter<'_>) -> fmt::Result {
        f.debug_struct("Call")
            .field("stop", &self.row().stop())
            .field("arrival", &self.arrival())
            .field("departure", &self.departure())
            .finish_non_exhaustive()
    }
}
