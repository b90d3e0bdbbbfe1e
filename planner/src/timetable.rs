//! A loaded delivery that owns all that its questions need.

use std::error::Error;
use std::{fmt, io};

use crate::by_number::load::Files;
use crate::by_number::{helper_words, load_with, room, room_for, Indexed, Lengths, Table};
use crate::date::Date;
use crate::handles::Scope;
use crate::keys::Load;
use crate::kind::Kind;
use crate::layout::{CALLS_AT, CALL_ARRIVAL_AT, CALL_DEPARTURE_AT, CALL_WORDS, FIRST_DAY_AT, SERVICE_WORDS};
use crate::memory::{room_for_bytes, zeroed, NoMemory};
use crate::minutes::Minutes;
use crate::refusal::{LoadRefusal, Offence};

/// The table of one accepted delivery, with its index, and with the bytes of its BAHNHOF, in which the names of its stops stand: made by one load, and never parted. It is never changed,
/// and is made to stand in an [`Arc`](std::sync::Arc) all day: [`a day in the host`](crate::a_day_in_the_host).
///
/// Every question is asked by the index, at the cost of its answer, whatever the size of the delivery: there is nothing to keep in front of it.
///
/// What it holds is asked through handles ([`Service`](crate::Service), [`Stop`](crate::Stop), [`BitField`](crate::BitField),
/// [`Category`](crate::Category), [`Run`](crate::Run)), which [`Timetable::scope`] gives.
pub struct Timetable {
    words: Box<[u32]>,
    /// Made of these words, and of no others.
    index: Box<[u32]>,
    bahnhof: Box<[u8]>,
    /// The number of its load, which its keys have.
    load: Load,
    /// No run has a later time.
    latest: Minutes,
}

impl Timetable {
    /// Loads a delivery. A refused one yields no timetable; one that was loaded before is not touched.
    ///
    /// It takes the words for the table and for the work from the heap: as many as are [enough](crate::by_number::room) for files of these lengths, so that one load
    /// does. What the table does not use is given back. Its index, which is shorter than the table, is made once. BAHNHOF is copied; the files are not needed afterwards.
    ///
    /// # Errors
    ///
    /// The first offence of the delivery, in document 01's order: number, file, line and column; neither [`Offence::TableTooShort`]
    /// nor [`Offence::HelperTooShort`]. Or that there is no memory: then nothing is left behind, and the host goes on.
    ///
    /// # Panics
    ///
    /// If the archive and this crate are not of one version ([`raw::VERSION`](crate::raw::VERSION)): they are compared once, before the first call of the archive. And if the
    /// archive answers what this crate does not know, which would mean the same. So it is for every question.
    pub fn load(files: &Files<'_>) -> Result<Timetable, LoadError> {
        let mut helper = zeroed(helper_words(files)?)?;
        let mut words = zeroed(room(files))?;
        let loaded = match load_with(files, &mut words, &mut helper) {
            Err(LoadRefusal { offence: Offence::TableTooShort, needed, .. }) => panic!(
                "the archive says that {} words are enough, and then needs {}: it is of another version than this crate",
                words.len(),
                needed
            ),
            answer => answer?,
        };
        drop(helper);
        words.truncate(loaded.words as usize);
        let (index, latest) = (index_of(Table::new(&words))?, latest_time(Table::new(&words)));
        let mut bahnhof = room_for_bytes(files.bahnhof.len())?;
        bahnhof.extend_from_slice(files.bahnhof);
        Ok(Timetable { words: words.into(), index, bahnhof: bahnhof.into(), load: Load::next(), latest })
    }

    /// How many words [`Timetable::load`] lends to the table of files with these lengths, as [`room_for`] says: known before a file is read. Helper words
    /// come on top: [`HELPER_LINE_WORDS`](crate::layout::HELPER_LINE_WORDS) for each line of BITFELD, BAHNHOF and UMSTEIGB, and
    /// [`HELPER_HEAD_WORDS`](crate::layout::HELPER_HEAD_WORDS).
    ///
    /// # Panics
    ///
    /// As [`Timetable::load`] does.
    #[must_use]
    pub fn room_for(lengths: &Lengths) -> usize {
        room_for(lengths)
    }

    /// Gives its handles to a closure, as [`std::thread::scope`] gives threads. What the closure gives back is given back; no handle can be in it, since
    /// each belongs to this scope alone, and no question takes one of another. What is to be kept is kept by [keys](crate::Key).
    ///
    /// ```
    /// # fn main() -> Result<(), Box<dyn std::error::Error>> {
    /// # let timetable = estelunya_planner::Timetable::read("../crates/ferry/data")?;
    /// use estelunya_planner::{Date, Month};
    ///
    /// let friday = Date::new(5, Month::December, 2025).unwrap();
    /// let numbers: Vec<u32> = timetable.scope(|timetable| timetable.services().map(|service| service.number()).collect());
    /// assert_eq!(numbers, [42]);
    /// let runs = timetable.scope(|timetable| Some(timetable.services().next()?.runs(timetable.day(friday)?).len()));
    /// assert_eq!(runs, Some(1));
    /// # Ok(())
    /// # }
    /// ```
    ///
    /// # What does not compile
    ///
    /// Two timetables, and a field of one in a question with a field of the other. This compiles:
    ///
    /// ```
    /// # fn main() -> Result<(), Box<dyn std::error::Error>> {
    /// # let (old, new) = (estelunya_planner::Timetable::read("../crates/ferry/data")?, estelunya_planner::Timetable::read("../crates/ferry/data")?);
    /// let days = old.scope(|old| new.scope(|new| {
    ///     let (ferry, daily) = (old.bit_fields().next().unwrap(), new.each_day());
    ///     (ferry & old.each_day()).day_count() + daily.day_count()
    /// }));
    /// assert_eq!(days, 12);
    /// # Ok(())
    /// # }
    /// ```
    ///
    /// This does not, since `ferry` is of another timetable than `daily`. The compiler says `error[E0521]: borrowed data escapes outside of closure` and "`new` escapes the closure body here": where two
    /// scopes are at hand, that means that their handles met in one question.
    ///
    /// ```compile_fail,E0521
    /// # fn main() -> Result<(), Box<dyn std::error::Error>> {
    /// # let (old, new) = (estelunya_planner::Timetable::read("../crates/ferry/data")?, estelunya_planner::Timetable::read("../crates/ferry/data")?);
    /// let days = old.scope(|old| new.scope(|new| {
    ///     let (ferry, daily) = (old.bit_fields().next().unwrap(), new.each_day());
    ///     (ferry & daily).day_count() + daily.day_count()
    /// }));
    /// # Ok(())
    /// # }
    /// ```
    ///
    /// Nor does a function of the host that is given a handle of another timetable than it asks, if it says so by one lifetime (E0521 again):
    ///
    /// ```compile_fail,E0521
    /// # use estelunya_planner::{Scope, Service};
    /// # fn main() -> Result<(), Box<dyn std::error::Error>> {
    /// # let (old, new) = (estelunya_planner::Timetable::read("../crates/ferry/data")?, estelunya_planner::Timetable::read("../crates/ferry/data")?);
    /// fn listed<'t>(timetable: Scope<'t>, service: Service<'t>) -> bool {
    ///     timetable.services().any(|listed| listed == service)
    /// }
    /// old.scope(|old| new.scope(|new| listed(new, old.services().next().unwrap())));
    /// # Ok(())
    /// # }
    /// ```
    ///
    /// Nor does a handle that is kept for later, when its timetable may be gone. Given back, it is "error: lifetime may not live long enough: returning this value requires that `'1` must outlive
    /// `'2`": give back keys, numbers, dates or strings.
    ///
    /// ```compile_fail
    /// # fn main() -> Result<(), Box<dyn std::error::Error>> {
    /// # let timetable = estelunya_planner::Timetable::read("../crates/ferry/data")?;
    /// let kept = timetable.scope(|timetable| timetable.services().next());
    /// # Ok(())
    /// # }
    /// ```
    ///
    /// Put into a variable outside, it is E0521, "`timetable` escapes the closure body here":
    ///
    /// ```compile_fail,E0521
    /// # fn main() -> Result<(), Box<dyn std::error::Error>> {
    /// # let timetable = estelunya_planner::Timetable::read("../crates/ferry/data")?;
    /// let mut kept = None;
    /// timetable.scope(|timetable| kept = timetable.services().next());
    /// drop(timetable);
    /// kept.unwrap().number();
    /// # Ok(())
    /// # }
    /// ```
    pub fn scope<R>(&self, ask: impl for<'t> FnOnce(Scope<'t>) -> R) -> R {
        ask(Scope::new(self))
    }

    /// The period of the delivery.
    #[must_use]
    pub fn period(&self) -> Period {
        let first = self.by_number().header(FIRST_DAY_AT);
        let last = first + self.by_number().period_days() - 1;
        match (Date::from_day_number(first), Date::from_day_number(last)) {
            (Some(first), Some(last)) => Period { first, last },
            _ => panic!("the archive accepted a period that ends on day {}", last),
        }
    }

    /// How many services there are. An accepted delivery may have none: a host should raise an alarm then, and not plan with it.
    #[must_use]
    pub fn service_count(&self) -> usize {
        self.by_number().services() as usize
    }

    /// The words, to be asked by bare numbers: nobody then sees whether a number was read in this timetable.
    #[must_use]
    pub fn by_number(&self) -> Table<'_> {
        Table::new(&self.words)
    }

    /// The words beside their index, to be asked by bare numbers at the cost of the answer.
    #[must_use]
    pub fn indexed(&self) -> Indexed<'_> {
        self.by_number().with_index(&self.index)
    }

    /// Its services as FPLAN, in one clean form (document 02, No. 11): per service the opening line, all *G, all *A VE, other *A, then calls; lines of 60 bytes, the last of them LF. Loaded
    /// beside the delivery's other files it is accepted, and gives the same timetable but for the opening lines; written again, the same bytes. That is proved.
    ///
    /// ```
    /// # fn main() -> Result<(), Box<dyn std::error::Error>> {
    /// # let timetable = estelunya_planner::Timetable::read("../crates/ferry/data")?;
    /// let text = String::from_utf8(timetable.write_fplan())?;
    /// let lines: Vec<&str> = text.lines().collect();
    /// assert_eq!(lines[0], "*Z 00042 FERRY_       000 000                             %");
    /// assert_eq!(lines[2], "*A VE      #0      #3 000001                              %");
    /// assert_eq!(lines[3], "1000011                              00800 00042 FERRY_   %");
    /// # Ok(())
    /// # }
    /// ```
    ///
    /// # Panics
    ///
    /// If there is no memory for the text.
    #[must_use]
    pub fn write_fplan(&self) -> Vec<u8> {
        // Neither 21 nor 44 for the table of an accepted delivery: that is proved.
        self.by_number().fplan().unwrap_or_else(|refusal| panic!("{:?}: {}", self, refusal))
    }

    /// The same to a file, or wherever bytes go.
    ///
    /// # Errors
    ///
    /// Those of writing.
    pub fn write_fplan_to(&self, mut out: impl io::Write) -> io::Result<()> {
        out.write_all(&self.write_fplan())
    }

    /// The bytes of BAHNHOF, as they were loaded.
    #[must_use]
    pub fn bahnhof(&self) -> &[u8] {
        &self.bahnhof
    }

    /// The latest time that a run can have, from the start of its date.
    pub(crate) fn latest(&self) -> Minutes {
        self.latest
    }

    /// The number of its load.
    pub(crate) fn load_number(&self) -> Load {
        self.load
    }

    /// The words of the service with this index.
    pub(crate) fn service_words(&self, index: usize) -> Option<&[u32]> {
        self.indexed().service_words(index)
    }
}

/// Not its words: only what it is about.
impl fmt::Debug for Timetable {
    fn fmt(&self, f: &mut fmt::Formatter<'_>) -> fmt::Result {
        let period = self.period();
        f.debug_struct("Timetable")
            .field("first", &period.first)
            .field("last", &period.last)
            .field("services", &self.service_count())
            .field("words", &self.words.len())
            .finish_non_exhaustive()
    }
}

/// Why there is no timetable of a delivery.
#[derive(Clone, Copy, Debug, PartialEq, Eq)]
#[non_exhaustive]
pub enum LoadError {
    /// The delivery is refused.
    Refused(LoadRefusal),
    /// There is no memory for it.
    NoMemory(NoMemory),
}

impl fmt::Display for LoadError {
    fn fmt(&self, f: &mut fmt::Formatter<'_>) -> fmt::Result {
        match self {
            LoadError::Refused(refusal) => refusal.fmt(f),
            LoadError::NoMemory(none) => none.fmt(f),
        }
    }
}

impl Error for LoadError {}

impl From<LoadRefusal> for LoadError {
    fn from(refusal: LoadRefusal) -> LoadError {
        LoadError::Refused(refusal)
    }
}

impl From<NoMemory> for LoadError {
    fn from(none: NoMemory) -> LoadError {
        LoadError::NoMemory(none)
    }
}

/// The days of a delivery, from its first to its last.
#[derive(Clone, Copy, Debug, PartialEq, Eq, Hash)]
#[non_exhaustive]
pub struct Period {
    /// Its first day.
    pub first: Date,
    /// Its last day.
    pub last: Date,
}

impl Period {
    /// The period of two days; `None` if the second is earlier. A delivery's has at most 380 days.
    #[must_use]
    pub fn new(first: Date, last: Date) -> Option<Period> {
        Some(Period { first, last }).filter(|period| period.first <= period.last)
    }

    /// How many days it has.
    #[must_use]
    pub fn day_count(self) -> u32 {
        self.last.day_number() - self.first.day_number() + 1
    }

    /// Whether a date is in it: of no other is there a [`Day`](crate::Day).
    #[must_use]
    pub fn contains(self, date: Date) -> bool {
        self.first <= date && date <= self.last
    }

    /// Its dates, the first first.
    pub fn dates(self) -> impl DoubleEndedIterator<Item = Date> {
        (self.first.day_number()..=self.last.day_number()).filter_map(Date::from_day_number)
    }
}

/// The latest time of all runs: a service's times do not go back (15), so that its last call has its latest, and its last run is the latest.
fn latest_time(table: Table<'_>) -> Minutes {
    let of_service = |words: &[u32]| {
        let last = words[CALLS_AT] as usize * CALL_WORDS + SERVICE_WORDS - CALL_WORDS;
        let late = Kind::of_head(words).and_then(|kind| kind.late(kind.last_repeat()))?;
        Some(words.get(last + CALL_ARRIVAL_AT)?.max(words.get(last + CALL_DEPARTURE_AT)?) + late)
    };
    table.service_records().filter_map(of_service).max().unwrap_or(0).into()
}

/// The index of a table that was loaded: never longer than the table, so that it is made at once.
fn index_of(table: Table<'_>) -> Result<Box<[u32]>, NoMemory> {
    let mut index = zeroed(table.words().len())?;
    match table.make_index(&mut index) {
        Ok(used) => index.truncate(used),
        // Neither 21 nor 29 can be.
        Err(refusal) => panic!("the archive made no index of a table that it had loaded: {}", refusal),
    }
    Ok(index.into())
}
