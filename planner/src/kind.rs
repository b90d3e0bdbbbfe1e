//! The kind of a service: which runs it has, and how late each is.

use crate::layout::{KIND_AT, KIND_T, KIND_Z, OFFSET_AT, REPEATS_AT};

/// Repeats and offset of a *Z service are at most so much: three digits.
const MOST_REPEATS: u32 = 999;
/// Running time and density of a *T service are at most so much: four digits.
const MOST_RUNNING: u32 = 9_999;

/// What a service's opening line says of its runs: its kind, and the numbers that this kind has.
#[derive(Clone, Copy, Debug, PartialEq, Eq)]
#[non_exhaustive]
pub enum Kind {
    /// Opened by *Z: so many runs follow the first, each the offset in minutes after the one before.
    Repeated {
        /// The runs that follow the first, 0 to 999.
        repeats: u32,
        /// Minutes from run to run, 0 to 999.
        offset: u32,
    },
    /// Opened by *T, a service on call: its runs start while the running time lasts, each the density in seconds after the one
    /// before.
    Frequent {
        /// Minutes, 0 to 9,999.
        running_time: u32,
        /// Seconds from run to run, 1 to 9,999.
        density: u32,
    },
}

impl Kind {
    /// What the words of a service's head say; `None` where they say what no table says.
    pub(crate) fn of_head(head: &[u32]) -> Option<Kind> {
        let (repeats, offset) = (head[REPEATS_AT], head[OFFSET_AT]);
        match head[KIND_AT] {
            KIND_Z if repeats <= MOST_REPEATS && offset <= MOST_REPEATS => Some(Kind::Repeated { repeats, offset }),
            KIND_T if repeats <= MOST_RUNNING && offset <= MOST_RUNNING && offset > 0 => {
                Some(Kind::Frequent { running_time: repeats, density: offset })
            }
            _ => None,
        }
    }

    /// The repeat of the last run; a service has one run more, since they count from 0.
    #[must_use]
    pub fn last_repeat(self) -> u32 {
        match self {
            Kind::Repeated { repeats, .. } => repeats,
            Kind::Frequent { running_time, density } => 60 * running_time / density.max(1),
        }
    }

    /// The minutes that all times of a repeat are later than those of the run itself, which is repeat 0; `None` if there is no such run, which a walk refuses with
    /// 25. A *T service can have 599,941.
    #[must_use]
    pub fn late(self, repeat: u32) -> Option<u32> {
        if repeat > self.last_repeat() {
            return None;
        }
        Some(match self {
            Kind::Repeated { offset, .. } => repeat * offset,
            Kind::Frequent { density, .. } => (repeat * density + 59) / 60,
        })
    }
}
