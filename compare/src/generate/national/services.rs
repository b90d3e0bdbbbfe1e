//! The services of a large FPLAN: routes of neighbouring stops, some of them there and back.

use super::ends::{from_end, to_end, EndText};
use super::{stop_name, FAMILY};
use crate::columns::{a, g, line, t, z};
use crate::generate::ends::hours_minutes;
use crate::generate::plan::{random_cuts, Call, Change};
use crate::generate::rng::Rng;

const ADMINISTRATIONS: [&str; 5] = ["FERRY_", "80____", "000011", "BLS_33", "PAG801"];
/// Categories as they are used, with their classes.
#[rustfmt::skip]
const CATEGORIES: [(&str, u32); 40] = [
    ("ICE", 0), ("TGV", 0), ("RJ", 0), ("EC", 1), ("IC", 1), ("ICN", 1), ("EN", 1), ("CNL", 1), ("IR", 2), ("RX", 2),
    ("D", 2), ("RE", 3), ("R", 3), ("RB", 3), ("REX", 3), ("BAT", 4), ("FAE", 4), ("BAV", 4), ("KAT", 4), ("S", 5),
    ("SN", 5), ("SZ", 5), ("BUS", 6), ("NFB", 6), ("NFO", 6), ("EXB", 6), ("TX", 6), ("NB", 6), ("KB", 6), ("FUN", 7),
    ("GB", 7), ("LB", 7), ("SL", 7), ("ZB", 7), ("ARZ", 8), ("EXT", 8), ("TRM", 9), ("T", 9), ("NFT", 9), ("M", 9),
];
const CODES: [&str; 6] = ["FA", "B", "WR", "KL", "RO", "X"];

/// So many categories: those above, then a capital and two digits or capitals.
pub fn categories(count: usize) -> Vec<(String, u32)> {
    let digit = |value: usize| char::from(b"0123456789ABCDEFGHIJKLMNOPQRSTUVWXYZ"[value % 36]);
    let made = (0..26 * 36 * 36).map(|i| {
        let code: String = [digit(10 + i / 36 / 36), digit(i / 36), digit(i)].iter().collect();
        (code, i as u32 % 14)
    });
    let used = CATEGORIES.iter().map(|(code, class)| (code.to_string(), *class));
    let new = made.filter(|(code, _)| CATEGORIES.iter().all(|(used, _)| used != code));
    used.chain(new).take(count).collect()
}

/// What services are made of: the numbers of all stops and bit fields, and the categories with their classes.
pub struct Services<'a> {
    pub stops: &'a [u32],
    pub fields: &'a [u32],
    pub categories: &'a [(String, u32)],
}

impl Services<'_> {
    /// The lines of a service.
    pub fn service(&self, rng: &mut Rng, number: u32) -> Vec<String> {
        let administration = rng.pick(&ADMINISTRATIONS);
        let calls = self.calls(rng, number % 100_000, administration);
        let number = format!("{:05}", number % 100_000);
        let mut lines = vec![opening(rng, &number, administration)];
        lines.extend(self.categories(rng, &calls));
        lines.extend(self.operating_days(rng, &calls));
        lines.extend(self.attributes(rng, &calls));
        lines.extend(calls.iter().map(|call| call_line(rng, call)));
        lines
    }

    fn calls(&self, rng: &mut Rng, number: u32, administration: &str) -> Vec<Call> {
        let count = match rng.below(100) {
            0..=14 => rng.between(2, 7),
            15..=79 => rng.between(8, 25),
            80..=97 => rng.between(26, 60),
            _ => rng.between(61, 200),
        };
        let mut now = rng.between(240, 1_320);
        let stops = self.route(rng, count as usize);
        let last = stops.len() - 1;
        let call = |(at, stop): (usize, &u32)| {
            let arrival = now;
            now += if rng.once_in(4) { rng.below(6) } else { 0 };
            let departure = now;
            now += rng.between(1, 9);
            let stated = |time: u32, is: bool| if is { Some(time) } else { None };
            let change = change(rng, number, administration);
            Call { stop: *stop, arrival: stated(arrival, at > 0), departure: stated(departure, at < last), change }
        };
        stops.iter().enumerate().map(call).collect()
    }

    /// So many stops, each near the one before; once in twenty times there and back.
    fn route(&self, rng: &mut Rng, count: usize) -> Vec<u32> {
        let mut at = rng.index(self.stops.len());
        let mut route = Vec::with_capacity(count);
        for _ in 0..count {
            route.push(self.stops[at]);
            at = (at + rng.between(1, 12.min(self.stops.len() as u32 - 1)) as usize) % self.stops.len();
        }
        if rng.once_in(20) {
            let back: Vec<u32> = route.iter().take(count / 2).rev().copied().collect();
            route.truncate(count - back.len());
            route.extend(back);
        }
        route
    }

    /// *G over all legs, mostly one.
    fn categories(&self, rng: &mut Rng, calls: &[Call]) -> Vec<String> {
        let parts = rng.pick(&[1, 1, 1, 1, 1, 1, 1, 2, 2, 3]);
        let cuts = random_cuts(rng, calls.len() - 1, parts);
        let range = |ends: &[usize]| {
            let (category, _) = &self.categories[rng.index(self.categories.len())];
            range_line(rng, calls, ends, |from, to| g(category, from, to))
        };
        cuts.windows(2).map(range).collect()
    }

    /// *A VE over all legs. Where there are several, their bit fields are of one family, and the one that runs most
    /// often has the others on both sides: no day has two stretches.
    fn operating_days(&self, rng: &mut Rng, calls: &[Call]) -> Vec<String> {
        let parts = rng.pick(&[1, 1, 1, 1, 1, 1, 2, 2, 3, 5]);
        let cuts = random_cuts(rng, calls.len() - 1, parts);
        let (peak, family) = (rng.index(cuts.len() - 1), self.family(rng));
        let field = |part: usize| family.get(part.abs_diff(peak).min(FAMILY - 1)).map(|field| format!("{:06}", field));
        let range = |(part, ends): (usize, &[usize])| {
            range_line(rng, calls, ends, |from, to| a("VE", from, to, &field(part).unwrap_or_default()))
        };
        cuts.windows(2).enumerate().map(range).collect()
    }

    /// Bit fields of a family; none for a service that runs daily.
    fn family(&self, rng: &mut Rng) -> &[u32] {
        let families = self.fields.chunks_exact(FAMILY);
        if families.len() == 0 || rng.once_in(8) {
            return &[];
        }
        let chosen = FAMILY * rng.index(families.len());
        &self.fields[chosen..chosen + FAMILY]
    }

    /// Other *A, up to four, some only on some days.
    fn attributes(&self, rng: &mut Rng, calls: &[Call]) -> Vec<String> {
        let count = rng.pick(&[0, 0, 0, 1, 1, 2, 4]);
        let mut lines = Vec::new();
        for _ in 0..count {
            let (one, other) = (rng.index(calls.len()), rng.index(calls.len()));
            let whole = [0, calls.len() - 1];
            let ends = if rng.coin() { whole } else { [one.min(other), one.max(other)] };
            let (code, family) = (rng.pick(&CODES), self.family(rng));
            let field = family.first().filter(|_| rng.once_in(3)).map(|field| format!("{:06}", field));
            lines.push(range_line(rng, calls, &ends, |from, to| a(code, from, to, &field.unwrap_or_default())));
        }
        lines
    }
}

/// Mostly nothing, now and then the service's own, once in a while another number or another administration.
fn change(rng: &mut Rng, number: u32, administration: &str) -> Change {
    let own = |name: &str| name.as_bytes().try_into().ok();
    match rng.below(120) {
        0..=9 => Change { number: Some(number), administration: own(administration) },
        10 => Change { number: Some(rng.below(100_000)), administration: None },
        11 => Change { number: None, administration: own(rng.pick(&ADMINISTRATIONS)) },
        _ => Change::default(),
    }
}

/// Now and then with repeats, once in a while a frequency service.
fn opening(rng: &mut Rng, number: &str, administration: &str) -> String {
    if rng.once_in(25) {
        return t(
            number,
            administration,
            &format!("{:04}", rng.between(60, 900)),
            &format!("{:04}", rng.pick(&[300, 450, 600, 900, 1_200])),
        );
    }
    if rng.once_in(8) {
        return z(
            number,
            administration,
            &format!("{:03}", rng.between(1, 30)),
            &format!("{:03}", rng.between(5, 120)),
        );
    }
    z(number, administration, "", "")
}

/// A range from the first of two indexes to the second.
fn range_line(
    rng: &mut Rng,
    calls: &[Call],
    ends: &[usize],
    line: impl FnOnce((&str, &str), (&str, &str)) -> String,
) -> String {
    let from = from_end(rng, calls, ends[0]);
    let to = to_end(rng, calls, ends[1]);
    line(parts_of(&from), parts_of(&to))
}

fn parts_of((end, detail): &EndText) -> (&str, &str) {
    (end, detail)
}

/// With the stop's name; now and then with number and administration, a time that forbids, or an X.
fn call_line(rng: &mut Rng, call: &Call) -> String {
    let Change { number, administration } = call.change;
    let cross = if rng.once_in(200) { "X" } else { "" };
    line(&[
        (1, &format!("{:07}", call.stop)),
        (9, &stop_name(call.stop)),
        (30, &time_text(rng, call.arrival)),
        (37, &time_text(rng, call.departure)),
        (44, &number.map_or_else(String::new, |number| format!("{:05}", number))),
        (50, &administration.map_or_else(String::new, |bytes| String::from_utf8_lossy(&bytes).into_owned())),
        (57, cross),
        (59, "%"),
    ])
}

fn time_text(rng: &mut Rng, time: Option<u32>) -> String {
    let sign = if rng.once_in(30) { '-' } else { ' ' };
    time.map_or_else(String::new, |minutes| format!("{}{}", sign, hours_minutes(minutes)))
}
