//! Keys: what a host may keep of a handle. Each has the number of its load, so that another timetable does not know it.

use std::sync::atomic::{AtomicU64, Ordering};

use crate::date::Date;
use crate::handles::{BitField, Category, Run, Scope, Service, Stop};

/// The number of a load: no two loads of a program have the same.
#[derive(Clone, Copy, Debug, PartialEq, Eq, PartialOrd, Ord, Hash)]
pub(crate) struct Load(u64);

impl Load {
    /// A number that no load has had.
    pub(crate) fn next() -> Load {
        static NEXT: AtomicU64 = AtomicU64::new(1);
        Load(NEXT.fetch_add(1, Ordering::Relaxed))
    }
}

/// What a host may keep of a handle, in a map, over a request, over the night: [`ServiceKey`], [`StopKey`], [`BitFieldKey`], [`CategoryKey`],
/// [`RunKey`]. [`Scope::get`] finds the handle again, in the timetable that it is of and in no other: a key of yesterday's timetable is `None` today,
/// also where both were loaded from the same files.
///
/// ```
/// # fn main() -> Result<(), Box<dyn std::error::Error>> {
/// use estelunya_planner::Timetable;
///
/// let yesterday = Timetable::read("../crates/ferry/data")?;
/// let today = Timetable::read("../crates/ferry/data")?;
/// let key = yesterday.scope(|timetable| timetable.services().next().unwrap().key());
/// assert_eq!(yesterday.scope(|timetable| timetable.get(key).map(|service| service.number())), Some(42));
/// assert_eq!(today.scope(|timetable| timetable.get(key).map(|service| service.number())), None);
/// # Ok(())
/// # }
/// ```
///
/// There is no bare index of a service, and no number of a bit field, that could be kept over a swap and then mean another: this does not compile,
///
/// ```compile_fail,E0599
/// # let timetable = estelunya_planner::Timetable::read("../crates/ferry/data").unwrap();
/// let kept: usize = timetable.scope(|timetable| timetable.services().next().unwrap().index());
/// ```
///
/// and neither does this:
///
/// ```compile_fail,E0599
/// # let timetable = estelunya_planner::Timetable::read("../crates/ferry/data").unwrap();
/// let kept: Option<u32> = timetable.scope(|timetable| timetable.bit_fields().next().unwrap().number());
/// ```
///
/// A key is made by its handle, and by nobody else:
///
/// ```compile_fail,E0451
/// # use estelunya_planner::StopKey;
/// let guessed = |key: StopKey| StopKey { number: 1_000_022, ..key };
/// ```
///
/// A key of a stop is none of a service:
///
/// ```compile_fail,E0308
/// # use estelunya_planner::{ServiceKey, Timetable};
/// # let timetable = Timetable::read("../crates/ferry/data").unwrap();
/// let key: ServiceKey = timetable.scope(|timetable| timetable.stops().next().unwrap().key());
/// ```
pub trait Key<'t>: Copy + private::Sealed {
    /// What it is a key of.
    type Handle;

    /// The handle, if this is its timetable.
    #[doc(hidden)]
    fn find(self, scope: Scope<'t>) -> Option<Self::Handle>;
}

mod private {
    pub trait Sealed {}
}

impl<'t> Scope<'t> {
    /// The service, stop, bit field, category or run of a key: `None` if the key is another timetable's, which yesterday's is too.
    #[must_use]
    pub fn get<K: Key<'t>>(self, key: K) -> Option<K::Handle> {
        key.find(self)
    }
}

/// A key of a service.
#[derive(Clone, Copy, Debug, PartialEq, Eq, PartialOrd, Ord, Hash)]
pub struct ServiceKey {
    load: Load,
    index: usize,
}

/// A key of a stop.
#[derive(Clone, Copy, Debug, PartialEq, Eq, PartialOrd, Ord, Hash)]
pub struct StopKey {
    load: Load,
    number: u32,
}

/// A key of a bit field of BITFELD, or of each day.
#[derive(Clone, Copy, Debug, PartialEq, Eq, PartialOrd, Ord, Hash)]
pub struct BitFieldKey {
    load: Load,
    number: u32,
}

/// A key of a category.
#[derive(Clone, Copy, Debug, PartialEq, Eq, PartialOrd, Ord, Hash)]
pub struct CategoryKey {
    load: Load,
    code: [u8; 3],
}

/// A key of a run.
#[derive(Clone, Copy, Debug, PartialEq, Eq, PartialOrd, Ord, Hash)]
pub struct RunKey {
    service: ServiceKey,
    date: Date,
    repeat: u32,
}

impl<'t> Service<'t> {
    /// What a host may keep of it: see [`Key`].
    #[must_use]
    pub fn key(self) -> ServiceKey {
        ServiceKey { load: self.scope.load(), index: self.index }
    }
}

impl<'t> Stop<'t> {
    /// What a host may keep of it: see [`Key`]. Its number is the same in every delivery that lists it.
    #[must_use]
    pub fn key(self) -> StopKey {
        StopKey { load: self.scope.load(), number: self.number }
    }
}

impl<'t> BitField<'t> {
    /// What a host may keep of it: see [`Key`]. `None` if it was made of others.
    #[must_use]
    pub fn key(self) -> Option<BitFieldKey> {
        self.number.map(|number| BitFieldKey { load: self.scope.load(), number })
    }
}

impl<'t> Category<'t> {
    /// What a host may keep of it: see [`Key`]. Its code is the same in every delivery that lists it.
    #[must_use]
    pub fn key(self) -> CategoryKey {
        CategoryKey { load: self.scope.load(), code: self.code() }
    }
}

impl<'t> Run<'t> {
    /// What a host may keep of it: see [`Key`].
    #[must_use]
    pub fn key(self) -> RunKey {
        RunKey { service: self.service().key(), date: self.date(), repeat: self.repeat }
    }
}

impl private::Sealed for ServiceKey {}
impl private::Sealed for StopKey {}
impl private::Sealed for BitFieldKey {}
impl private::Sealed for CategoryKey {}
impl private::Sealed for RunKey {}

impl<'t> Key<'t> for ServiceKey {
    type Handle = Service<'t>;

    fn find(self, scope: Scope<'t>) -> Option<Service<'t>> {
        Some(self.index).filter(|_| self.load == scope.load()).and_then(|index| scope.service_by_index(index))
    }
}

impl<'t> Key<'t> for StopKey {
    type Handle = Stop<'t>;

    fn find(self, scope: Scope<'t>) -> Option<Stop<'t>> {
        Some(self.number).filter(|_| self.load == scope.load()).and_then(|number| scope.stop_by_number(number))
    }
}

impl<'t> Key<'t> for BitFieldKey {
    type Handle = BitField<'t>;

    fn find(self, scope: Scope<'t>) -> Option<BitField<'t>> {
        Some(self.number).filter(|_| self.load == scope.load()).and_then(|number| scope.bit_field_by_number(number))
    }
}

impl<'t> Key<'t> for CategoryKey {
    type Handle = Category<'t>;

    fn find(self, scope: Scope<'t>) -> Option<Category<'t>> {
        Some(self.code).filter(|_| self.load == scope.load()).and_then(|code| scope.category_by_code(code))
    }
}

impl<'t> Key<'t> for RunKey {
    type Handle = Run<'t>;

    fn find(self, scope: Scope<'t>) -> Option<Run<'t>> {
        scope.get(self.service)?.runs(scope.day(self.date)?).nth(self.repeat as usize)
    }
}
