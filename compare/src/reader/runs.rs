//! Which runs a service has, and how late each is: document 01's repeats, and document 02, No. 8's frequency services.

use crate::layout::{KIND_T, KIND_Z};

/// What an opening line says of a service's runs.
#[derive(Clone, Copy, Debug, PartialEq, Eq)]
pub enum Runs {
    /// *Z: repeats, and the offset in minutes.
    Repeated { repeats: u32, offset: u32 },
    /// *T: "running time in minutes 17-20, density in seconds 22-25".
    Frequent { running_time: u32, density: u32 },
}

impl Runs {
    /// "A service record gains a twelfth word, its kind (0 for *Z, 1 for *T ..)".
    pub fn kind(self) -> u32 {
        match self {
            Runs::Repeated { .. } => KIND_Z,
            Runs::Frequent { .. } => KIND_T,
        }
    }

    /// "for kind 1 the repeats word holds the running time and the offset word the density"
    pub fn words(self) -> [u32; 2] {
        match self {
            Runs::Repeated { repeats, offset } => [repeats, offset],
            Runs::Frequent { running_time, density } => [running_time, density],
        }
    }

    /// The runs that a record's words say, `None` where 21 refuses them: "repeats or offset over 999"; "(.. 21 refuses others)",
    /// "and 21 allows 9,999 there but no density 0".
    pub fn of_words(kind: u32, [repeats, offset]: [u32; 2]) -> Option<Runs> {
        match kind {
            KIND_Z if repeats <= 999 && offset <= 999 => Some(Runs::Repeated { repeats, offset }),
            KIND_T if repeats <= 9_999 && (1..=9_999).contains(&offset) => {
                Some(Runs::Frequent { running_time: repeats, density: offset })
            }
            _ => None,
        }
    }

    /// The minutes that a run is late, `None` if there is no such run (25).
    pub fn late(self, run: u32) -> Option<u32> {
        match self {
            // "25 repeat number over repeats (0 is the run itself)"; "each plus repeat times offset"
            Runs::Repeated { repeats, .. } if run > repeats => None,
            Runs::Repeated { offset, .. } => Some(run * offset),
            // "The runs are j = 0, 1, 2.. while j times density is at most sixty times the running time, and run j is late by j times
            // density over sixty, rounded up."
            Runs::Frequent { running_time, density } => {
                let seconds = u64::from(run) * u64::from(density);
                if seconds > 60 * u64::from(running_time) {
                    return None;
                }
                Some(((seconds + 59) / 60) as u32)
            }
        }
    }
}
