//! What a delivery means, before it becomes lines. A random plan breaks no rule.

use super::rng::Rng;
use super::Size;
use crate::reader::bits::BitWords;
use crate::reader::calendar::{LAST_DAY, MOST_PERIOD_DAYS};

#[derive(Clone, Debug)]
pub struct Plan {
    pub first_day: u32,
    pub days: u32,
    pub bitfields: Vec<(u32, BitWords)>,
    pub stops: Vec<u32>,
    pub interchange: Vec<(u32, u32, u32)>,
    pub categories: Vec<Category>,
    /// Whether categories have tariff groups: all or none.
    pub grouped: bool,
    pub services: Vec<Service>,
}

/// A category with its class; a tariff group of `None` is written as a blank.
#[derive(Clone, Copy, Debug)]
pub struct Category {
    pub code: [u8; 3],
    pub class: u32,
    pub group: Option<u8>,
}

#[derive(Clone, Debug)]
pub struct Service {
    pub number: u32,
    pub administration: [u8; 6],
    pub runs: Runs,
    pub calls: Vec<Call>,
    pub ranges: Vec<Range>,
}

/// What the opening line says of the runs.
#[derive(Clone, Copy, Debug, PartialEq, Eq)]
pub enum Runs {
    /// *Z with repeats and offset; `None` is written as blanks.
    Repeats(Option<(u32, u32)>),
    /// *T with running time in minutes and density in seconds.
    Frequency(u32, u32),
}

#[derive(Clone, Copy, Debug)]
pub struct Call {
    pub stop: u32,
    pub arrival: Option<u32>,
    pub departure: Option<u32>,
    pub change: Change,
}

/// The number and the administration that hold from a call on; `None` is written as blanks.
#[derive(Clone, Copy, Debug, Default)]
pub struct Change {
    pub number: Option<u32>,
    pub administration: Option<[u8; 6]>,
}

#[derive(Clone, Copy, Debug, PartialEq, Eq)]
pub enum Given {
    Category([u8; 3]),
    Days(u32),
    Other([u8; 2], u32),
}

#[derive(Clone, Debug)]
pub struct Range {
    pub given: Given,
    pub from: usize,
    pub to: usize,
    /// A damage writes these end and detail texts instead of the planned ones.
    pub from_text: Option<(Vec<u8>, Vec<u8>)>,
    pub to_text: Option<(Vec<u8>, Vec<u8>)>,
}

impl Range {
    pub fn new(given: Given, from: usize, to: usize) -> Range {
        Range { given, from, to, from_text: None, to_text: None }
    }
}

/// The date of a day number, found by stepping over years and months.
pub fn date_of(day: u32) -> (u32, u32, u32) {
    let leap = |year: u32| year % 4 == 0 && (year % 100 != 0 || year % 400 == 0);
    let (mut rest, mut year) = (day, 1900);
    while rest >= 365 + u32::from(leap(year)) {
        rest -= 365 + u32::from(leap(year));
        year += 1;
    }
    let february = 28 + u32::from(leap(year));
    for (month, length) in (1..).zip([31, february, 31, 30, 31, 30, 31, 31, 30, 31, 30, 31]) {
        if rest < length {
            return (rest + 1, month, year);
        }
        rest -= length;
    }
    unreachable!()
}

/// Sets or clears bit k.
pub fn set_bit(words: &mut BitWords, k: u32, to: bool) {
    let mask = 1 << (31 - k % 32);
    let word = &mut words[(k / 32) as usize];
    *word = if to { *word | mask } else { *word & !mask };
}

/// A bit field of n days with its frame, running on the days that the rule names.
pub fn bitfield_of(n: u32, mut runs: impl FnMut(u32) -> bool) -> BitWords {
    let mut words = [0; 12];
    for k in [0, 1, n + 2, n + 3] {
        set_bit(&mut words, k, true);
    }
    for d in 0..n {
        set_bit(&mut words, d + 2, runs(d));
    }
    words
}

/// A random plan that breaks no rule.
pub fn random(rng: &mut Rng, size: Size) -> Plan {
    let days = match rng.below(8) {
        0 => 1,
        1 => rng.pick(&[2, 7, 28, 30, 62, 245, 365, 366, MOST_PERIOD_DAYS]),
        2 => MOST_PERIOD_DAYS,
        3 => 7,
        _ => rng.between(1, MOST_PERIOD_DAYS),
    };
    let first_day = match rng.below(8) {
        0 => 0,
        1 => LAST_DAY + 1 - days,
        2 => rng.pick(&[36_523, 36_583, 45_990, 73_108]),
        _ => rng.below(LAST_DAY + 2 - days),
    };
    let mut plan = Plan {
        first_day,
        days,
        bitfields: Vec::new(),
        stops: Vec::new(),
        interchange: Vec::new(),
        categories: Vec::new(),
        grouped: rng.coin(),
        services: Vec::new(),
    };
    let stops = match size {
        Size::Small => rng.between(2, 6),
        _ if rng.once_in(40) => 0,
        _ => rng.between(2, 20),
    };
    for _ in 0..stops {
        let stop = new_stop(rng, &plan);
        plan.stops.push(stop);
    }
    random_interchange(rng, &mut plan, size);
    for _ in 0..rng.below(3) {
        let words = random_days(rng, days);
        add_bitfield(rng, &mut plan, words);
    }
    for _ in 0..rng.pick(&[0, 0, 1, 2, 5]) {
        add_category(rng, &mut plan);
    }
    let services = match size {
        _ if stops == 0 || rng.once_in(40) => 0,
        Size::Small => rng.pick(&[1, 1, 2, 2, 3]),
        Size::Medium => rng.between(1, 5),
        Size::Large => rng.between(1, 2),
    };
    for _ in 0..services {
        let service = random_service(rng, &mut plan, size);
        plan.services.push(service);
    }
    rng.shuffle(&mut plan.bitfields);
    rng.shuffle(&mut plan.categories);
    plan
}

/// A code that ZUGART does not hold yet: any three bytes of which the first is neither a blank nor "%", often one that differs from a code there in
/// one byte alone: in capital or small, or in the second or third.
pub fn new_code(rng: &mut Rng, plan: &Plan) -> [u8; 3] {
    loop {
        let mut code = [rng.byte(false), rng.byte(true), rng.byte(true)];
        match rng.below(4) {
            0 => code = *rng.pick(&[b"BAT", b"bat", b"BA ", b"B  ", b"b  ", b"BAS"]),
            1 | 2 if !plan.categories.is_empty() => {
                code = rng.pick(&plan.categories).code;
                let at = rng.index(3);
                code[at] = match rng.below(3) {
                    0 if code[at].is_ascii_alphabetic() => code[at] ^ 0x20,
                    1 if at > 0 => b' ',
                    _ => rng.byte(at > 0),
                };
            }
            _ => {}
        }
        if plan.categories.iter().all(|category| category.code != code) {
            return code;
        }
    }
}

/// The code of a category that ZUGART then holds, with any class, at and around the limits of both interchange times more often.
pub fn add_category(rng: &mut Rng, plan: &mut Plan) -> [u8; 3] {
    let code = new_code(rng, plan);
    let any = rng.below(14);
    let class = rng.pick(&[0, 1, 2, 2, 3, 3, 12, 13, any, any]);
    let group = Some(rng.pick(b"ABCDEFGH")).filter(|_| plan.grouped);
    plan.categories.push(Category { code, class, group });
    code
}

/// A stop number that BAHNHOF may hold and does not hold yet.
pub fn new_stop(rng: &mut Rng, plan: &Plan) -> u32 {
    loop {
        let number = match rng.below(6) {
            0 => rng.between(1, 99),
            1 => rng.between(9_999_900, 9_999_998),
            2 => rng.between(1_000_001, 1_000_050),
            _ => rng.below(10_000_000),
        };
        if number % 100_000 != 0 && number != 9_999_999 && !plan.stops.contains(&number) {
            return number;
        }
    }
}

/// A bit field number that BITFELD does not hold yet.
pub fn new_bitfield(rng: &mut Rng, plan: &Plan) -> u32 {
    loop {
        let number = if rng.coin() { rng.between(1, 30) } else { rng.between(1, 999_999) };
        if plan.bitfields.iter().all(|(known, _)| *known != number) {
            return number;
        }
    }
}

/// The number under which these days stand in BITFELD, new or known.
pub fn add_bitfield(rng: &mut Rng, plan: &mut Plan, words: BitWords) -> u32 {
    if let Some((number, _)) = plan.bitfields.iter().find(|(_, known)| *known == words) {
        return *number;
    }
    let number = new_bitfield(rng, plan);
    plan.bitfields.push((number, words));
    number
}

fn random_days(rng: &mut Rng, days: u32) -> BitWords {
    match rng.below(5) {
        0 => bitfield_of(days, |_| true),
        1 => bitfield_of(days, |_| false),
        2 => bitfield_of(days, |d| d % 7 < 5),
        _ => bitfield_of(days, |_| rng.coin()),
    }
}

fn random_interchange(rng: &mut Rng, plan: &mut Plan, size: Size) {
    let mut numbers = vec![9_999_999];
    let some = if size == Size::Small { 4 } else { 2 };
    numbers.extend(plan.stops.iter().copied().filter(|_| rng.once_in(some)));
    rng.shuffle(&mut numbers[1..]);
    plan.interchange = numbers.into_iter().map(|number| (number, rng.between(0, 60), rng.between(0, 99))).collect();
}

fn random_service(rng: &mut Rng, plan: &mut Plan, size: Size) -> Service {
    let calls = match size {
        Size::Small => rng.between(2, 6),
        Size::Medium => rng.between(2, 14),
        Size::Large => rng.pick(&[200, 199, 120, 60]),
    };
    let administration = random_administration(rng);
    let calls = random_calls(rng, &plan.stops, calls as usize);
    let mut ranges = random_categories(rng, plan, calls.len() - 1, size);
    ranges.extend(random_operation(rng, plan, calls.len() - 1, size));
    ranges.extend(random_others(rng, plan, calls.len(), size));
    Service { number: rng.below(100_000), administration, runs: random_runs(rng), calls, ranges }
}

fn random_administration(rng: &mut Rng) -> [u8; 6] {
    let mut administration = [0; 6];
    administration.iter_mut().for_each(|byte| *byte = if rng.once_in(6) { rng.byte(false) } else { b'_' });
    administration
}

/// Another number or administration, each by itself, once in so many times.
fn random_change(rng: &mut Rng, rare: u32) -> Change {
    let any = rng.below(100_000);
    let number = Some(rng.pick(&[any, any, 0, 99_999])).filter(|_| rng.once_in(rare));
    let administration = Some(random_administration(rng)).filter(|_| rng.once_in(rare));
    Change { number, administration }
}

fn random_runs(rng: &mut Rng) -> Runs {
    if rng.coin() {
        return Runs::Repeats(random_repeats(rng));
    }
    let (running_time, density) = random_frequency(rng);
    Runs::Frequency(running_time, density)
}

/// Running time and density, both at and near the ends of what they may be; and such that the last run starts just at the end of the
/// running time, or as much before it as can be.
pub fn random_frequency(rng: &mut Rng) -> (u32, u32) {
    let any = (rng.below(10_000), rng.between(1, 9_999));
    let runs = rng.between(1, 9);
    match rng.below(8) {
        0 => (rng.pick(&[0, 1, 9_998, 9_999]), rng.pick(&[1, 2, 9_998, 9_999])),
        1 => (rng.pick(&[0, 0, 1, 9_999]), any.1),
        2 => (any.0, rng.pick(&[1, 59, 60, 61, 120, 450, 9_999])),
        // runs times density is sixty times the running time, or a second more
        3 | 4 => {
            let density = rng.pick(&[60, 90, 450, 720, 900, 1_080]);
            let running_time = runs * density / 60;
            (running_time, if rng.coin() { density } else { density + 1 })
        }
        5 => (rng.between(1, 600), rng.between(1, 1_200)),
        6 => (rng.between(1_000, 9_999), rng.between(1_000, 9_999)),
        _ => any,
    }
}

fn random_repeats(rng: &mut Rng) -> Option<(u32, u32)> {
    match rng.below(5) {
        0 | 1 => None,
        2 => Some((0, rng.pick(&[0, 1, 999]))),
        3 => Some((rng.between(1, 5), rng.between(1, 60))),
        _ => Some((rng.pick(&[1, 23, 999]), rng.pick(&[1, 10, 999]))),
    }
}

/// A route whose stops may repeat and whose times never fall.
fn random_calls(rng: &mut Rng, stops: &[u32], calls: usize) -> Vec<Call> {
    let few = rng.between(1, stops.len() as u32) as usize;
    let mut now = match rng.below(6) {
        0 => 0,
        1 => rng.between(59_000, 59_999),
        _ => rng.below(1_500),
    };
    let slow = rng.pick(&[1, 2, 40]);
    let mut later = |rng: &mut Rng| {
        now = (now + rng.below(slow)).min(59_999);
        now
    };
    let changes = rng.pick(&[2, 4, 1_000]);
    (0..calls)
        .map(|i| {
            let mut stated = |needed: bool| if needed || rng.once_in(3) { Some(later(rng)) } else { None };
            let arrival = stated(i > 0);
            let departure = stated(i + 1 < calls);
            Call { stop: stops[rng.index(few)], arrival, departure, change: random_change(rng, changes) }
        })
        .collect()
}

/// Where to cut so many legs into so many parts, both outer ends among the cuts.
pub fn random_cuts(rng: &mut Rng, legs: usize, parts: usize) -> Vec<usize> {
    let mut inner: Vec<usize> = (1..legs).collect();
    rng.shuffle(&mut inner);
    inner.truncate(parts.min(legs).saturating_sub(1));
    inner.extend([0, legs]);
    inner.sort_unstable();
    inner
}

fn parts(rng: &mut Rng, size: Size) -> usize {
    match size {
        Size::Small => rng.pick(&[1, 1, 1, 2, 3]),
        Size::Medium => rng.between(1, 5) as usize,
        Size::Large => rng.pick(&[50, 50, 30, 3]),
    }
}

fn random_categories(rng: &mut Rng, plan: &mut Plan, legs: usize, size: Size) -> Vec<Range> {
    let parts = parts(rng, size);
    let cuts = random_cuts(rng, legs, parts);
    let mut ranges = Vec::new();
    for ends in cuts.windows(2) {
        let category = match plan.categories.len() {
            listed if listed > 0 && !rng.once_in(4) => plan.categories[rng.index(listed)].code,
            _ => add_category(rng, plan),
        };
        ranges.push(Range::new(Given::Category(category), ends[0], ends[1]));
    }
    rng.shuffle(&mut ranges);
    ranges
}

/// Operating days that never tear the run: each day belongs to a class, and each class runs over parts in a row.
fn random_operation(rng: &mut Rng, plan: &mut Plan, legs: usize, size: Size) -> Vec<Range> {
    let parts = parts(rng, size);
    let cuts = random_cuts(rng, legs, parts);
    let parts = cuts.len() - 1;
    let classes: Vec<(usize, usize)> = (0..rng.between(1, 3))
        .map(|_| {
            let (a, b) = (rng.index(parts + 1), rng.index(parts + 1));
            if rng.coin() {
                (0, parts)
            } else {
                (a.min(b), a.max(b))
            }
        })
        .collect();
    let weekly = rng.coin();
    let class_of: Vec<usize> = (0..plan.days)
        .map(|d| if weekly { (d % 7) as usize % classes.len() } else { rng.index(classes.len()) })
        .collect();
    let mut ranges = Vec::new();
    for part in 0..parts {
        let words = bitfield_of(plan.days, |d| {
            let (from, to) = classes[class_of[d as usize]];
            from <= part && part < to
        });
        let daily = words == bitfield_of(plan.days, |_| true);
        let bitfield = if daily && rng.coin() { 0 } else { add_bitfield(rng, plan, words) };
        ranges.push(Range::new(Given::Days(bitfield), cuts[part], cuts[part + 1]));
    }
    rng.shuffle(&mut ranges);
    ranges
}

/// A code that is not "VE".
pub fn random_code(rng: &mut Rng) -> [u8; 2] {
    loop {
        let code = match rng.below(3) {
            0 => rng.pick(&[*b"V ", *b"VF", *b"ve", *b"EV", *b"FA"]),
            _ => [rng.byte(false), rng.byte(true)],
        };
        if code != *b"VE" {
            return code;
        }
    }
}

fn random_others(rng: &mut Rng, plan: &Plan, calls: usize, size: Size) -> Vec<Range> {
    let others = match size {
        Size::Small => rng.pick(&[0, 0, 1]),
        Size::Medium => rng.below(4),
        Size::Large => rng.pick(&[100, 100, 40, 0]),
    };
    (0..others)
        .map(|_| {
            let (a, b) = (rng.index(calls), rng.index(calls));
            let b = if rng.once_in(3) { a } else { b };
            let bitfield = match plan.bitfields.len() {
                0 => 0,
                _ if rng.coin() => 0,
                known => plan.bitfields[rng.index(known)].0,
            };
            Range::new(Given::Other(random_code(rng), bitfield), a.min(b), a.max(b))
        })
        .collect()
}
