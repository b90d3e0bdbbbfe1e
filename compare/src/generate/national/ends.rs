//! Range ends in the shares that operators write them: mostly nothing or a stop number, now and then with a detail.

use crate::generate::ends::hours_minutes;
use crate::generate::plan::Call;
use crate::generate::rng::Rng;

/// An end and its detail.
pub type EndText = (String, String);

/// Where a *from* or a *to* stands: the calls that its search meets before it, nearest last, and the time that a detail names.
struct Place<'a> {
    at: usize,
    is_outer: bool,
    before: Vec<&'a Call>,
    time: fn(&Call) -> Option<u32>,
}

pub fn from_end(rng: &mut Rng, calls: &[Call], at: usize) -> EndText {
    let before = calls[..at].iter().collect();
    written(rng, calls, &Place { at, is_outer: at == 0, before, time: |call| call.departure })
}

pub fn to_end(rng: &mut Rng, calls: &[Call], at: usize) -> EndText {
    let before = calls[at + 1..].iter().collect();
    written(rng, calls, &Place { at, is_outer: at + 1 == calls.len(), before, time: |call| call.arrival })
}

fn written(rng: &mut Rng, calls: &[Call], place: &Place<'_>) -> EndText {
    let of = |text: String| (text, String::new());
    if place.is_outer && !rng.once_in(3) {
        return of(String::new());
    }
    if rng.once_in(8) {
        return of(format!("#{}", place.at));
    }
    let call = &calls[place.at];
    let stop = format!("{:07}", call.stop);
    let same: Vec<&&Call> = place.before.iter().filter(|other| other.stop == call.stop).collect();
    if same.is_empty() && !rng.once_in(4) {
        return of(stop);
    }
    match (place.time)(call) {
        Some(minutes) if same.iter().all(|other| (place.time)(other) != Some(minutes)) && !rng.once_in(4) => {
            (stop, format!(" {}", hours_minutes(minutes)))
        }
        _ => (stop, format!("#{}", calls[..place.at].iter().filter(|other| other.stop == call.stop).count())),
    }
}
