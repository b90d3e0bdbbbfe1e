//! The ways to write a range end and its detail (5.3.1), so that they mean a given route index.

use super::plan::Call;
use super::rng::Rng;

/// HHHMM.
pub fn hours_minutes(minutes: u32) -> String {
    format!("{:03}{:02}", minutes / 60, minutes % 60)
}

/// "#" and digits with blanks around, in so many columns.
pub fn hashed(rng: &mut Rng, number: usize, width: usize) -> Vec<u8> {
    let mut text = format!("#{}", number);
    while text.len() < width && rng.once_in(4) {
        text.insert(1, '0');
    }
    padded(rng, text.as_bytes(), width)
}

/// The text somewhere among blanks, in so many columns.
pub fn padded(rng: &mut Rng, text: &[u8], width: usize) -> Vec<u8> {
    let room = width.saturating_sub(text.len());
    let before = if rng.coin() { 0 } else { rng.index(room + 1) };
    let mut field = vec![b' '; before];
    field.extend_from_slice(text);
    field.resize(width, b' ');
    field
}

/// A detail that is not read may hold anything.
fn unread(rng: &mut Rng) -> Vec<u8> {
    match rng.below(4) {
        0 => rng.text(6),
        1 => b" 00872".to_vec(),
        _ => vec![b' '; 6],
    }
}

fn timed(rng: &mut Rng, minutes: u32) -> Vec<u8> {
    let sign = if rng.once_in(3) { "-" } else { " " };
    format!("{}{}", sign, hours_minutes(minutes)).into_bytes()
}

/// A *from* (7 columns) and its detail (6 columns) for a route index.
pub fn from_text(rng: &mut Rng, calls: &[Call], at: usize) -> (Vec<u8>, Vec<u8>) {
    let mut ways = Vec::new();
    if at == 0 {
        ways.push((vec![b' '; 7], unread(rng)));
    }
    if let Some(call) = calls.get(at) {
        let before = |call: &&Call| call.stop == calls[at].stop;
        let first = !calls[..at].iter().any(|other| before(&other));
        let first_then = !calls[..at].iter().any(|other| before(&other) && other.departure == call.departure);
        stop_ways(rng, calls, at, &mut ways, first, if first_then { call.departure } else { None });
    }
    choose(rng, ways, at)
}

/// A *to* (7 columns) and its detail (6 columns) for a route index.
pub fn to_text(rng: &mut Rng, calls: &[Call], at: usize) -> (Vec<u8>, Vec<u8>) {
    let mut ways = Vec::new();
    if at + 1 == calls.len() {
        ways.push((vec![b' '; 7], unread(rng)));
    }
    if let Some(call) = calls.get(at) {
        let after = |call: &&Call| call.stop == calls[at].stop;
        let last = !calls[at + 1..].iter().any(|other| after(&other));
        let last_then = !calls[at + 1..].iter().any(|other| after(&other) && other.arrival == call.arrival);
        stop_ways(rng, calls, at, &mut ways, last, if last_then { call.arrival } else { None });
    }
    choose(rng, ways, at)
}

type Ways = Vec<(Vec<u8>, Vec<u8>)>;

/// The stop with "#k", and with a blank or a time where that says the same call.
fn stop_ways(rng: &mut Rng, calls: &[Call], at: usize, ways: &mut Ways, outermost: bool, time: Option<u32>) {
    let stop = format!("{:07}", calls[at].stop).into_bytes();
    let nth = calls[..at].iter().filter(|call| call.stop == calls[at].stop).count();
    ways.push((stop.clone(), hashed(rng, nth, 6)));
    if outermost {
        ways.push((stop.clone(), vec![b' '; 6]));
    }
    if let Some(minutes) = time {
        ways.push((stop, timed(rng, minutes)));
    }
}

fn choose(rng: &mut Rng, mut ways: Ways, at: usize) -> (Vec<u8>, Vec<u8>) {
    ways.push((hashed(rng, at, 7), unread(rng)));
    let chosen = rng.index(ways.len());
    ways.swap_remove(chosen)
}
