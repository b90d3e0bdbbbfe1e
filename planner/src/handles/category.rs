//! Categories of services, and their classes.

use std::fmt;
use std::hash::{Hash, Hasher};

use super::Scope;
use crate::layout::MOST_CLASS;
use crate::row::three_bytes;

/// A category of services (or means of transport), as ZUGART lists it: `IC `, `BAT`.
#[derive(Clone, Copy)]
#[must_use]
pub struct Category<'t> {
    pub(crate) scope: Scope<'t>,
    pub(super) code: u32,
    pub(super) class: u32,
}

impl Category<'_> {
    /// Its code, columns 1-3 of its line.
    #[must_use]
    pub fn code(self) -> [u8; 3] {
        three_bytes(self.code)
    }

    /// Its class: see [what a class is](crate::a_day_in_the_host#what-a-class-is).
    #[must_use]
    pub fn class(self) -> Class {
        // ZUGART's lines have no other: that is refusal 4.
        Class::new(self.class).unwrap_or_else(|| panic!("the archive accepted class {}", self.class))
    }
}

/// Its code, without the blanks after it.
impl fmt::Display for Category<'_> {
    fn fmt(&self, f: &mut fmt::Formatter<'_>) -> fmt::Result {
        f.pad(String::from_utf8_lossy(&self.code()).trim_end())
    }
}

impl fmt::Debug for Category<'_> {
    fn fmt(&self, f: &mut fmt::Formatter<'_>) -> fmt::Result {
        write!(f, "Category({:?}, class {})", String::from_utf8_lossy(&self.code()), self.class)
    }
}

/// The same category: a timetable has one of a code.
impl PartialEq for Category<'_> {
    fn eq(&self, other: &Self) -> bool {
        self.code == other.code
    }
}

impl Eq for Category<'_> {}

impl Hash for Category<'_> {
    fn hash<H: Hasher>(&self, state: &mut H) {
        self.code.hash(state);
    }
}

/// The quality of a means of transport, 0 the highest to 13 the lowest: see [what a class is](crate::a_day_in_the_host#what-a-class-is).
///
/// ```
/// use estelunya_planner::Class;
///
/// assert_eq!(Class::new(4).map(|class| class.number()), Some(4));
/// assert_eq!(Class::new(14), None);
/// ```
#[derive(Clone, Copy, Debug, PartialEq, Eq, PartialOrd, Ord, Hash)]
pub struct Class(u32);

impl Class {
    /// The class of a number; `None` over 13.
    #[must_use]
    pub fn new(number: u32) -> Option<Class> {
        Some(Class(number)).filter(|_| number <= MOST_CLASS)
    }

    /// Its number, 0 to 13.
    #[must_use]
    pub fn number(self) -> u32 {
        self.0
    }
}

impl fmt::Display for Class {
    fn fmt(&self, f: &mut fmt::Formatter<'_>) -> fmt::Result {
        fmt::Display::fmt(&self.0, f)
    }
}
