//! Proposed connections (document 02, No. 12): parts that hold, with waits at and about what a change takes, and one thing wrong in one part.

use super::plan::date_of;
use super::questions::last_run;
use super::raw_table::{parts as parts_of, RawService, RawTable};
use super::rng::Rng;
use crate::layout::{
    BIT_FIELD_WORDS, CALL_FLAGS_AT, CALL_WORDS, CATEGORY_CODE_AT, CATEGORY_FROM_AT, CATEGORY_TO_AT, DAYS_FIELD_AT,
    DAYS_FROM_AT, DAYS_TO_AT, INTERCHANGE_FIRST_TIME_AT, INTERCHANGE_SECOND_TIME_AT, INTERCHANGE_STOP_AT, NO_ALIGHTING,
    NO_BOARDING, ROW_ARRIVAL_AT, ROW_CATEGORY_AT, ROW_DEPARTURE_AT, ROW_FLAGS_AT, ROW_STOP_AT, USED_AT,
};
use crate::reader::calendar::LAST_DAY;
use crate::reader::connection::{Courses, MOST_PARTS, PART_WORDS};
use crate::reader::is_table;

/// A part as it is proposed; the day is one of the period.
#[derive(Clone, Copy, Debug)]
struct Part {
    service: usize,
    run: u32,
    day: u32,
    boards: u32,
    alights: u32,
}

/// How a part arrives: the day, the stop, the minutes and the category of the leg.
#[derive(Clone, Copy, Debug)]
struct Arrival {
    day: u32,
    stop: u32,
    minutes: u32,
    category: u32,
}

/// A table, and the words of a connection that is proposed on it.
pub fn proposed(rng: &mut Rng, table: &[u32]) -> (Vec<u32>, Vec<u32>) {
    if !is_table(table) {
        let length = rng.index(79);
        return (table.to_vec(), (0..length).map(|_| rng.below(9)).collect());
    }
    let used = table[USED_AT] as usize;
    let mut raw = parts_of(&table[..used]);
    let (mut found, waits) = chain(rng, table, raw.days);
    if found.is_empty() {
        found.push(Part { service: 0, run: 0, day: 0, boards: 0, alights: 1 });
    }
    if let (false, true) = (waits.is_empty(), rng.once_in(3)) {
        let (stop, wait) = rng.pick(&waits);
        retime(rng, &mut raw, stop, wait);
    }
    if rng.once_in(3) {
        bend_one(rng, &mut raw, &mut found);
    }
    let first_day = raw.first_day;
    let mut words: Vec<u32> = found.iter().flat_map(|part| part_words(part, first_day)).collect();
    if rng.once_in(3) {
        spoil_part(rng, &mut words, raw.first_day + raw.days);
    }
    if rng.once_in(12) {
        other_length(rng, &mut words);
    }
    let mut bent = raw.words();
    bent.extend_from_slice(&table[used..]);
    (bent, words)
}

fn part_words(part: &Part, first_day: u32) -> [u32; PART_WORDS] {
    let (d, m, y) = date_of((first_day + part.day).min(LAST_DAY));
    [part.service as u32, part.run, d, m, y, part.boards, part.alights]
}

/// Parts each of which follows on the one before, and the stops and waits of the changes. Mostly the first run that can be reached, now and then the one before it.
fn chain(rng: &mut Rng, table: &[u32], days: u32) -> (Vec<Part>, Vec<(u32, i64)>) {
    let (mut found, mut waits) = (Vec::new(), Vec::new());
    let courses = match Courses::of(table) {
        Some(courses) if courses.services() > 0 => courses,
        _ => return (found, waits),
    };
    let wanted = rng.pick(&[1, 1, 2, 2, 3, 3, 3, 4, 6, MOST_PARTS]);
    let mut before = match (0..8).find_map(|_| first_part(rng, &courses, days)) {
        Some((part, arrival)) => {
            found.push(part);
            arrival
        }
        None => return (found, waits),
    };
    while found.len() < wanted {
        match next_part(rng, &courses, before, days) {
            Some((part, arrival, wait)) => {
                waits.push((before.stop, wait));
                found.push(part);
                before = arrival;
            }
            None => break,
        }
    }
    (found, waits)
}

fn first_part(rng: &mut Rng, courses: &Courses<'_>, days: u32) -> Option<(Part, Arrival)> {
    let (service, day) = (rng.index(courses.services()), rng.below(days));
    let run = if rng.coin() { 0 } else { rng.below(4) };
    let course = courses.course(service, run, day)?;
    let boards = rng.index(course.rows.len() - 1);
    ended(rng, &course.rows, course.first, boards, Part { service, run, day, boards: 0, alights: 0 })
}

/// A part that boards at a row, with a row to alight at, where both are allowed.
fn ended(rng: &mut Rng, rows: &[[u32; 10]], first: usize, boards: usize, part: Part) -> Option<(Part, Arrival)> {
    let open: Vec<usize> = (boards + 1..rows.len()).filter(|at| rows[*at][ROW_FLAGS_AT] & NO_ALIGHTING == 0).collect();
    if open.is_empty() || rows[boards][ROW_FLAGS_AT] & NO_BOARDING != 0 {
        return None;
    }
    let alights = rng.pick(&open);
    let part = Part { boards: (first + boards) as u32, alights: (first + alights) as u32, ..part };
    let arrival = Arrival {
        day: part.day,
        stop: rows[alights][ROW_STOP_AT],
        minutes: rows[alights][ROW_ARRIVAL_AT],
        category: rows[alights - 1][ROW_CATEGORY_AT],
    };
    Some((part, arrival))
}

/// A part from the stop where the one before ends, and the wait there.
fn next_part(rng: &mut Rng, courses: &Courses<'_>, before: Arrival, days: u32) -> Option<(Part, Arrival, i64)> {
    let mut open = Vec::new();
    for service in 0..courses.services() {
        for day in [before.day.wrapping_sub(1), before.day, before.day, before.day + 1, before.day + 2] {
            if day >= days {
                continue;
            }
            if let Some(course) = courses.course(service, 0, day) {
                let rows = course.rows.len() - 1;
                let here = (0..rows).filter(|at| course.rows[*at][ROW_STOP_AT] == before.stop);
                open.extend(here.map(|at| (service, day, at)));
            }
        }
    }
    for _ in 0..8 {
        if open.is_empty() {
            return None;
        }
        let (service, day, boards) = rng.pick(&open);
        let course = courses.course(service, 0, day)?;
        let row = course.rows[boards];
        let needed = i64::from(courses.minutes(before.stop, before.category, row[ROW_CATEGORY_AT]).unwrap_or(0));
        let wait = 1_440 * (i64::from(day) - i64::from(before.day)) + i64::from(row[ROW_DEPARTURE_AT])
            - i64::from(before.minutes);
        let run = reached(rng, courses, service, needed - wait);
        let late = i64::from(courses.late(service, run).unwrap_or(0));
        // mostly one that can be reached
        if wait + late < needed && !rng.once_in(6) {
            continue;
        }
        let course = courses.course(service, run, day)?;
        let part = Part { service, run, day, boards: 0, alights: 0 };
        if let Some((part, arrival)) = ended(rng, &course.rows, course.first, boards, part) {
            return Some((part, arrival, wait + late));
        }
    }
    None
}

/// The first run that is late enough, looked for among some; else the run itself. Now and then the one before it.
fn reached(rng: &mut Rng, courses: &Courses<'_>, service: usize, late: i64) -> u32 {
    let mut runs = (0..2_000).take_while(|run| courses.late(service, *run).is_some());
    let enough = runs.find(|run| courses.late(service, *run).map_or(false, |own| i64::from(own) >= late));
    let run = enough.unwrap_or(0);
    if rng.once_in(5) {
        run.saturating_sub(1)
    } else {
        run
    }
}

/// What a change at a stop takes becomes the wait, or a minute less or more.
fn retime(rng: &mut Rng, raw: &mut RawTable, stop: u32, wait: i64) {
    let minutes = (wait + rng.pick(&[0, 0, 1, 1, -1])).clamp(0, i64::from(u32::MAX)) as u32;
    let at = raw.records.iter().position(|record| record[INTERCHANGE_STOP_AT] == stop).unwrap_or(0);
    if let Some(record) = raw.records.get_mut(at) {
        record[INTERCHANGE_FIRST_TIME_AT] = minutes;
        record[INTERCHANGE_SECOND_TIME_AT] = if rng.once_in(6) { u32::MAX } else { minutes };
    }
}

/// One part gets a service of its own, a copy behind the others, with one thing bent in it: 31, 33 to 36, 38, 48, or a number of runs that has no such run (25).
fn bend_one(rng: &mut Rng, raw: &mut RawTable, found: &mut [Part]) {
    let at = rng.pick(&[0, found.len() / 2, found.len() - 1, found.len() - 1]);
    let part = &mut found[at];
    let mut own = match raw.services.get(part.service) {
        Some(service) => service.clone(),
        None => return,
    };
    bend_service(rng, raw, &mut own, part);
    part.service = raw.services.len();
    raw.services.push(own);
}

fn bend_service(rng: &mut Rng, raw: &mut RawTable, own: &mut RawService, part: &mut Part) {
    let (boards, alights, legs) = (part.boards as usize, part.alights as usize, own.calls.len() as u32 - 1);
    let leg = rng.below(legs);
    match rng.below(9) {
        // a bit field that is not there
        0 => own.days.iter_mut().for_each(|days| days[DAYS_FIELD_AT] = 5_000_000),
        // a leg without operating days, or with them twice
        1 if rng.coin() => cut(&mut own.days, leg, [DAYS_FROM_AT, DAYS_TO_AT]),
        1 => own.days.push([0, leg, leg + 1]),
        // two stretches
        2 if legs >= 3 => {
            let mut never = [0; BIT_FIELD_WORDS];
            never[0] = 6_000_000;
            raw.bitfields.push(never);
            own.days = vec![[0, 0, 1], [never[0], 1, 2], [0, 2, legs]];
        }
        // times that fall, or are missing
        3 => own.calls[rng.pick(&[boards, alights, leg as usize])][1 + rng.index(2)] = rng.pick(&[0, 59_999]),
        4 => own.calls[rng.pick(&[boards, alights])][CALL_FLAGS_AT] &= !rng.pick(&[1, 2, 3]),
        // a leg without a category, with two, or with one that is not listed
        5 if rng.coin() => cut(&mut own.categories, leg, [CATEGORY_FROM_AT, CATEGORY_TO_AT]),
        5 => own.categories.push([5, leg, leg + 1]),
        6 => own.categories.iter_mut().for_each(|range| range[CATEGORY_CODE_AT] = 5),
        7 => permission(rng, &mut own.calls, boards, alights),
        _ => part.run = u32::try_from(last_run(&own.head) + 1).unwrap_or(u32::MAX),
    }
    own.days.truncate(50);
    own.categories.truncate(50);
}

fn permission(rng: &mut Rng, calls: &mut [[u32; CALL_WORDS]], boards: usize, alights: usize) {
    match rng.below(4) {
        0 => calls[boards][CALL_FLAGS_AT] |= NO_BOARDING,
        1 => calls[alights][CALL_FLAGS_AT] |= NO_ALIGHTING,
        // these two do no harm
        2 => calls[boards][CALL_FLAGS_AT] |= NO_ALIGHTING,
        _ => calls[alights][CALL_FLAGS_AT] |= NO_BOARDING,
    }
}

/// Takes a leg from the range that covers it.
fn cut(ranges: &mut Vec<[u32; 3]>, leg: u32, [from, to]: [usize; 2]) {
    let mut kept = Vec::new();
    for range in ranges.iter() {
        let [start, end] = [range[from], range[to]];
        if !(start..end).contains(&leg) {
            kept.push(*range);
            continue;
        }
        for (start, end) in [(start, leg), (leg + 1, end)] {
            if start < end {
                let mut part = *range;
                part[from] = start;
                part[to] = end;
                kept.push(part);
            }
        }
    }
    *ranges = kept;
}

/// One thing wrong in the words of one part; `behind` is the day after the period.
fn spoil_part(rng: &mut Rng, words: &mut [u32], behind: u32) {
    let count = words.len() / PART_WORDS;
    let at = rng.pick(&[0, count / 2, count - 1]);
    let part = &mut words[PART_WORDS * at..PART_WORDS * (at + 1)];
    match rng.below(12) {
        0 => part[2] = rng.pick(&[0, 32, u32::MAX]),
        1 => {
            let (d, m, y) = date_of(behind.min(LAST_DAY));
            part[2..5].copy_from_slice(&rng.pick(&[[d, m, y], [1, 1, 1900], [31, 12, 2199]]));
        }
        2 => part[0] = rng.pick(&[part[0] + 1, 1_000, u32::MAX]),
        3 => part[1] = rng.pick(&[part[1] + 1, 1_000_000, u32::MAX]),
        4 => part[5] = rng.pick(&[part[5] + 1, part[5].wrapping_sub(1), 200, u32::MAX]),
        5 => part[6] = rng.pick(&[part[6] + 1, part[6].wrapping_sub(1), 200, u32::MAX]),
        6 => part.swap(5, 6),
        7 => part[5] = part[6],
        8 => part[2] = part[2] % 28 + 1,
        // at another stop, more often than not
        9 | 10 => part[5] = rng.below(part[6].clamp(1, 200)),
        _ => part[rng.index(PART_WORDS)] = rng.draw() as u32,
    }
}

/// Words that are no whole parts, none, or eleven parts.
fn other_length(rng: &mut Rng, words: &mut Vec<u32>) {
    let length = match rng.below(4) {
        0 => rng.index(79),
        1 => rng.pick(&[0, 77, 78, 70, 71, 69]),
        2 => words.len() - rng.index(PART_WORDS),
        _ => words.len() + rng.index(PART_WORDS),
    };
    let front = words.clone();
    while words.len() < length {
        words.push(front[words.len() % front.len()]);
    }
    words.truncate(length);
}
