//! Generated deliveries, tables and questions: what a plan says, the reader must find; and every answer is reached.

use std::collections::BTreeMap;

use super::expected::{expected_table, expected_walk, last_run};
use crate::differ::{rng_of, senseless};
use crate::generate::bend_table::{BENDS, NO_TABLES, POKES};
use crate::generate::plan::{self, date_of};
use crate::generate::raw_table::parts;
use crate::generate::{
    counted_helper, damaged_table, mixed, oversized, question, valid, Aim, Case, Question, Rng, Size, DAMAGES,
};
use crate::layout::{ROW_CATEGORY_AT, ROW_FLAGS_AT, ROW_NUMBER_AT, ROW_WORDS};
use crate::reader::{day, interchange, interchange_between, is_table, load, walk, Changed, DayAnswer, Loaded, Walked};

const LENT: u32 = 0xAAAA_AAAA;

/// How often each answer came.
type Histogram = BTreeMap<String, u32>;

fn note(histogram: &mut Histogram, answer: String) {
    *histogram.entry(answer).or_insert(0) += 1;
}

fn show(title: &str, histogram: &Histogram) {
    println!("{}: {} cases", title, histogram.values().sum::<u32>());
    for (answer, times) in histogram {
        println!("  {:<24} {:>7}", answer, times);
    }
}

/// A refusal came more than a hundred times, whatever else its answers say.
fn came_often(histogram: &Histogram, number: u32) {
    let refused = format!("refused {:02}", number);
    let times: u32 = histogram.iter().filter(|(answer, _)| answer.contains(&refused)).map(|(_, times)| times).sum();
    assert!(times > 100, "{} only {} times", refused, times);
}

/// A turn of a test, told if something fails in it.
struct Turn {
    seed: u64,
    index: u32,
}

impl Drop for Turn {
    fn drop(&mut self) {
        if std::thread::panicking() {
            eprintln!("this was turn {} of seed {}", self.index, self.seed);
        }
    }
}

/// Runs so many turns. Each has its own generator, so that one that fails runs again alone.
fn turns(seed: u64, count: u32, mut work: impl FnMut(&mut Rng, u32)) {
    for index in 0..count {
        let _told = Turn { seed, index };
        work(&mut rng_of(seed, u64::from(index)), index);
    }
}

/// Loads a case; a refusal leaves the table as lent, an acceptance the words after those used. The helper words that are needed
/// hold 0, further ones stay; after 1 and 51 all stay.
fn run(case: &Case) -> (Loaded, Vec<u32>) {
    let mut table = vec![LENT; case.room];
    let mut helper = case.helper.clone();
    let loaded = load(case.slices(), &mut table, &mut helper);
    let emptied = match loaded {
        Loaded::Refused { number: 1 | 51, .. } => 0,
        _ => counted_helper(&case.files),
    };
    assert!(helper[..emptied].iter().all(|word| *word == 0));
    assert_eq!(helper[emptied..], case.helper[emptied..]);
    let used = match loaded {
        Loaded::Accepted { words } => words as usize,
        Loaded::Refused { .. } => 0,
    };
    assert!(table[used..].iter().all(|word| *word == LENT));
    if used > 0 {
        assert!(is_table(&table));
        assert_eq!(parts(&table).words(), table[..used]);
    }
    (loaded, table)
}

fn check_aim(case: &Case, aim: &Aim, loaded: Loaded) {
    match loaded {
        Loaded::Refused { number, file, line, column, needed } => {
            assert_eq!((number, file, line, column), (aim.number, aim.file, aim.line, aim.column));
            match number {
                20 => assert!(needed > case.room as u32),
                51 => assert_eq!(
                    (needed as usize, needed > case.helper.len() as u32),
                    (counted_helper(&case.files), true)
                ),
                _ => assert_eq!(needed, 0),
            }
        }
        Loaded::Accepted { .. } => panic!("accepted, but aimed at {:?}", aim),
    }
}

fn check_valid(case: &Case, loaded: Loaded, table: &[u32]) {
    if let Some((plan, sheet)) = &case.plan {
        let expected = expected_table(plan, sheet, &case.files[2]);
        assert_eq!(loaded, Loaded::Accepted { words: expected.len() as u32 });
        assert_eq!(table[..expected.len()], expected);
    }
}

fn key(loaded: Loaded) -> String {
    match loaded {
        Loaded::Accepted { .. } => "accepted".to_string(),
        Loaded::Refused { number, file, .. } => format!("refused {:02} file {}", number, file),
    }
}

#[test]
fn loads() {
    let mut histogram = Histogram::new();
    turns(1, 200_000, |rng, turn| {
        let case = mixed(rng, turn);
        let (loaded, table) = run(&case);
        note(&mut histogram, key(loaded));
        match case.aim {
            Some(aim) => check_aim(&case, &aim, loaded),
            None => check_valid(&case, loaded, &table),
        }
    });
    show("loads", &histogram);
    DAMAGES.iter().for_each(|number| came_often(&histogram, *number));
}

#[test]
fn lengths() {
    turns(2, 12, |rng, _| {
        let case = oversized(rng);
        let (loaded, _) = run(&case);
        match case.aim {
            Some(aim) => check_aim(&case, &aim, loaded),
            None => assert!(matches!(loaded, Loaded::Accepted { .. })),
        }
    });
}

/// Every day with every run; where there are many runs, every day with the first, and each other run on a day; where there are
/// thousands, some of them and the last ones.
fn days_and_runs(rng: &mut Rng, days: u32, last: u32) -> Vec<(u32, u32)> {
    if last <= 5 {
        return (0..days).flat_map(|day| (0..=last).map(move |run| (day, run))).collect();
    }
    let mut asked: Vec<(u32, u32)> = (0..days).map(|day| (day, 0)).collect();
    let step = 1 + last / 1_000;
    asked.extend(
        (1..=last).step_by(step as usize).map(|run| (rng.below(days), run + rng.below(step.min(last + 1 - run)))),
    );
    asked.extend([(rng.below(days), last - 1), (rng.below(days), last)]);
    asked
}

/// A walk on the table of a delivery without damage is refused for no service, repeat and date of its own.
#[test]
fn walks() {
    let mut histogram = Histogram::new();
    turns(3, 1_500, |rng, turn| {
        let case = valid(rng, if turn % 100 == 0 { Size::Large } else { Size::Medium });
        let (_, table) = run(&case);
        let (plan, _) = case.plan.as_ref().unwrap();
        for (s, service) in plan.services.iter().enumerate() {
            let last = last_run(service);
            let (d, m, y) = date_of(plan.first_day);
            for over in [last + 1, last + 60, u32::MAX] {
                assert_eq!(walk(&table, s as u32, over, d, m, y, &mut []), Walked::Refused { number: 25, needed: 0 });
            }
            for (day, repeat) in days_and_runs(rng, plan.days, last) {
                let (d, m, y) = date_of(plan.first_day + day);
                let expected = expected_walk(plan, s, repeat, day);
                let mut rows = vec![LENT; expected.len() + 3];
                let walked = walk(&table, s as u32, repeat, d, m, y, &mut rows);
                note(&mut histogram, format!("{:?}", walked).split('(').next().unwrap().to_string());
                if let Some(kind) = change_shown(service, &expected) {
                    note(&mut histogram, kind.to_string());
                }
                let listed = (expected.len() / ROW_WORDS) as u32;
                assert_eq!(walked, if listed == 0 { Walked::NotRunning } else { Walked::Rows(listed) });
                rows.chunks_mut(ROW_WORDS).take(listed as usize).for_each(|row| row[ROW_FLAGS_AT] = 0);
                assert_eq!(rows[..expected.len()], expected);
                assert_eq!(rows[expected.len()..], [LENT; 3]);
            }
        }
    });
    show("walks of planned services", &histogram);
    for kind in CHANGES {
        assert!(histogram[kind] > 100, "{} only {} times", kind, histogram[kind]);
    }
}

const CHANGES: [&str; 3] = ["from mid-route, number changed", "a change on the way", "only one of both changed"];

/// What the rows of a walk show of changes of number and administration.
fn change_shown(service: &plan::Service, rows: &[u32]) -> Option<&'static str> {
    let shown: Vec<&[u32]> = rows.chunks(ROW_WORDS).map(|row| &row[ROW_NUMBER_AT..ROW_CATEGORY_AT]).collect();
    let first = *shown.first()?;
    let starts_late = shown.len() < service.calls.len() && service.calls[0].stop != rows[0];
    let one_alone = |pair: &[&[u32]]| (pair[0][0] != pair[1][0]) != (pair[0][1..] != pair[1][1..]);
    if starts_late && first[0] != service.number {
        Some(CHANGES[0])
    } else if shown.windows(2).any(one_alone) {
        Some(CHANGES[2])
    } else if shown.iter().any(|row| *row != first) {
        Some(CHANGES[1])
    } else {
        None
    }
}

fn answer(words: &[u32], question: Question) -> String {
    match question {
        Question::Day { date: [d, m, y], bitfield } => match day(words, d, m, y, bitfield) {
            DayAnswer::Refused { number } => format!("day refused {}", number),
            answer => format!("day {:?}", answer),
        },
        Question::Interchange { stop, classes: [a, b] } => match interchange(words, stop, a, b) {
            Changed::Refused { number } => format!("interchange refused {}", number),
            Changed::Minutes(_) => "interchange minutes".to_string(),
        },
        Question::Between { stop, categories: [a, b] } => match interchange_between(words, stop, a, b) {
            Changed::Refused { number } => format!("between refused {}", number),
            Changed::Minutes(_) => "between minutes".to_string(),
        },
        Question::Walk { service, repeat, date: [d, m, y], room } => {
            let mut rows = vec![LENT; room];
            let walked = walk(words, service, repeat, d, m, y, &mut rows);
            let written = if let Walked::Rows(listed) = walked { ROW_WORDS * listed as usize } else { 0 };
            assert!(rows[written..].iter().all(|word| *word == LENT));
            match walked {
                Walked::Rows(_) => "walk rows".to_string(),
                Walked::NotRunning => "walk not running".to_string(),
                Walked::Refused { number, needed } => {
                    assert_eq!(needed as usize > room, number == 29);
                    format!("walk refused {}", number)
                }
            }
        }
    }
}

#[test]
fn questions() {
    let mut histogram = Histogram::new();
    turns(4, 40_000, |rng, turn| {
        let case = valid(rng, if turn % 4 == 0 { Size::Medium } else { Size::Small });
        let (_, table) = run(&case);
        let words = if turn % 4 == 1 { table } else { damaged_table(rng, &table) };
        for _ in 0..5 {
            let question = question(rng, &words);
            note(&mut histogram, answer(&words, question));
        }
    });
    show("questions", &histogram);
    (21..=38).filter(|number| ![30, 32, 37].contains(number)).for_each(|number| came_often(&histogram, number));
}

/// Each condition of 21 in turn, and each damage that keeps a table.
#[test]
fn tables_or_not() {
    turns(5, 2_000, |rng, _| {
        let case = valid(rng, Size::Small);
        let (_, table) = run(&case);
        for bend in BENDS {
            let mut raw = parts(&table);
            bend(rng, &mut raw);
            assert!(is_table(&raw.words()));
        }
        for (i, bend) in NO_TABLES.iter().enumerate() {
            let mut raw = parts(&table);
            let done = bend(rng, &mut raw).is_some();
            assert_eq!(is_table(&raw.words()), !done, "no table {}", i);
        }
        for (i, poke) in POKES.iter().enumerate() {
            let mut words = table.clone();
            let done = poke(rng, &mut words).is_some();
            assert_eq!(is_table(&words), !done, "poke {}", i);
        }
    });
}

/// Words of no sense at all bring 21 and no panic.
#[test]
fn any_words() {
    turns(6, 20_000, |rng, _| {
        let words = senseless(rng);
        let question = question(rng, &words);
        answer(&words, question);
    });
}
