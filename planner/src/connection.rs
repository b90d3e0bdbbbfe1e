//! Proposed connections of one timetable's runs.

use std::error::Error;
use std::fmt;

use crate::by_number;
use crate::handles::{Run, Scope};
use crate::refusal::Refusal;

/// A part of a proposed connection: a run, boarded at one of its calls and left at a later one.
#[derive(Clone, Copy, Debug, PartialEq, Eq, Hash)]
pub struct Part<'t> {
    /// The run.
    pub run: Run<'t>,
    /// The place of the call where one boards, in [`Service::route`](crate::Service::route): [`Call::place`](crate::Call::place).
    pub board: usize,
    /// The place of the call where one alights.
    pub alight: usize,
}

/// A connection that was proposed: runs of one timetable, one after the other. Of two timetables it does not compile.
///
/// ```
/// # fn main() -> Result<(), Box<dyn std::error::Error>> {
/// # let timetable = estelunya_planner::Timetable::read("../crates/ferry/data")?;
/// # let friday = "05.12.2025".parse()?;
/// use estelunya_planner::{BadConnection, BadPart, Part};
///
/// timetable.scope(|timetable| {
///     let friday = timetable.day(friday).unwrap();
///     let run = timetable.services().next().unwrap().runs(friday).next().unwrap();
///     let whole = timetable.connection([Part { run, board: 0, alight: 3 }]);
///     assert_eq!(whole.check(), Ok(()));
///     // back to the second quay at 08:55, and off again at 08:12: too late
///     let again = timetable.connection([Part { run, board: 0, alight: 3 }, Part { run, board: 1, alight: 2 }]);
///     let bad = again.check().unwrap_err();
///     assert_eq!(bad, BadConnection::Part { part: 2, why: BadPart::WaitTooShort });
///     assert_eq!(bad.to_string(), "part 2: refused 50: the wait is shorter than the interchange time");
///     Ok(())
/// })
/// # }
/// ```
///
/// ```compile_fail,E0521
/// # use estelunya_planner::Part;
/// # fn main() -> Result<(), Box<dyn std::error::Error>> {
/// # let (old, new) = (estelunya_planner::Timetable::read("../crates/ferry/data")?, estelunya_planner::Timetable::read("../crates/ferry/data")?);
/// # let friday = "05.12.2025".parse()?;
/// old.scope(|old| new.scope(|new| {
///     let run = old.services().next().unwrap().runs(old.day(friday).unwrap()).next().unwrap();
///     new.connection([Part { run, board: 0, alight: 3 }]).check().is_ok()
/// }));
/// # Ok(())
/// # }
/// ```
#[derive(Clone, PartialEq, Eq)]
#[must_use]
pub struct Connection<'t> {
    scope: Scope<'t>,
    parts: Vec<Part<'t>>,
}

impl<'t> Scope<'t> {
    /// A connection of these parts, in the order in which they are ridden, to be [checked](Connection::check).
    pub fn connection(self, parts: impl IntoIterator<Item = Part<'t>>) -> Connection<'t> {
        Connection { scope: self, parts: parts.into_iter().collect() }
    }
}

impl<'t> Connection<'t> {
    /// Its parts.
    #[must_use]
    pub fn parts(&self) -> &[Part<'t>] {
        &self.parts
    }

    /// Whether it holds: each part lies in that day's calls and boards before it alights, both allowed; the next one boards at the same stop, after a
    /// wait of at least the interchange time between the categories of the leg that arrives and of the leg that departs. It costs as much as its
    /// parts.
    ///
    /// # Errors
    ///
    /// The first bad part, and why, or that there are not 1 to 10 parts. (Of an accepted delivery no 38 comes, and of a walk's own refusals only 22 to 25: that is
    /// proved; a run that was listed is refused by none of these.)
    pub fn check(&self) -> Result<(), BadConnection> {
        let parts: Vec<_> = self.parts.iter().map(bare).collect();
        self.scope.indexed().connection(&parts).map_err(|bad| {
            BadConnection::of(bad).unwrap_or_else(|| panic!("the archive answered {:?} for {:?}", bad, self))
        })
    }
}

/// Why a proposed connection does not hold.
#[derive(Clone, Copy, Debug, PartialEq, Eq)]
pub enum BadConnection {
    /// 46: it has no part, or over 10.
    PartCount,
    /// A part is bad, or does not follow the one before.
    Part {
        /// The first bad part, counted from 1.
        part: usize,
        /// Why.
        why: BadPart,
    },
}

/// Why a part of a connection is bad.
#[derive(Clone, Copy, Debug, PartialEq, Eq)]
pub enum BadPart {
    /// 47: the boarding or the alighting call is not among that day's calls of the run.
    NotAmongRows,
    /// 48: boarding is not before alighting, or one of them is forbidden there.
    OrderOrPermission,
    /// 49: it boards at another stop than the part before alights at.
    OtherStop,
    /// 50: the wait before it is shorter than the interchange time.
    WaitTooShort,
}

impl BadConnection {
    fn of(bad: by_number::BadPart) -> Option<BadConnection> {
        let why = match bad.refusal {
            Refusal::NotWholeParts => return Some(BadConnection::PartCount),
            Refusal::NotAmongRows => BadPart::NotAmongRows,
            Refusal::OrderOrPermission => BadPart::OrderOrPermission,
            Refusal::OtherStop => BadPart::OtherStop,
            Refusal::WaitTooShort => BadPart::WaitTooShort,
            _ => return None,
        };
        Some(BadConnection::Part { part: bad.part, why })
    }

    /// The refusal of the archive, with its number and its sentence.
    #[must_use]
    pub fn refusal(self) -> Refusal {
        match self {
            BadConnection::PartCount => Refusal::NotWholeParts,
            BadConnection::Part { why: BadPart::NotAmongRows, .. } => Refusal::NotAmongRows,
            BadConnection::Part { why: BadPart::OrderOrPermission, .. } => Refusal::OrderOrPermission,
            BadConnection::Part { why: BadPart::OtherStop, .. } => Refusal::OtherStop,
            BadConnection::Part { why: BadPart::WaitTooShort, .. } => Refusal::WaitTooShort,
        }
    }
}

impl fmt::Display for BadConnection {
    fn fmt(&self, f: &mut fmt::Formatter<'_>) -> fmt::Result {
        match self {
            BadConnection::PartCount => self.refusal().fmt(f),
            BadConnection::Part { part, .. } => write!(f, "part {}: {}", part, self.refusal()),
        }
    }
}

impl Error for BadConnection {}

/// A place that no word holds is no call of a route either.
fn bare(part: &Part<'_>) -> by_number::Part {
    let [boarding, alighting] = [part.board, part.alight].map(|place| u32::try_from(place).unwrap_or(u32::MAX));
    let (service, repeat) = part.run.bare();
    by_number::Part { service, repeat, date: part.run.date().into(), boarding, alighting }
}

impl fmt::Debug for Connection<'_> {
    fn fmt(&self, f: &mut fmt::Formatter<'_>) -> fmt::Result {
        f.debug_list().entries(&self.parts).finish()
    }
}
