//! Times the linked archive beside the independent reader on generated deliveries: the least of three turns each, the calls
//! alone. What is lent is made, and what is asked is drawn, before the clock starts.
//!
//!     bench MIB ..
//!
//! MIB is the size of FPLAN, such as 0.1, 1 or 4; the other files are in proportion. `EMULATOR` names the emulator that runs
//! this program, if there is one. The answers of both must be the same.

use std::process::exit;
use std::time::{Duration, Instant};

use compare::boundary::{Boundary, Reader};
use compare::generate::plan::date_of;
use compare::generate::{national, National, Rng, MIB};
use compare::layout::{
    BIT_FIELDS_AT, BIT_FIELD_WORDS, FIRST_DAY_AT, HEADER_WORDS, MOST_ROW_WORDS, PERIOD_DAYS_AT, SERVICES_AT, STOPS_AT,
    STOP_WORDS,
};
use compare::reader::helper_needed;

#[path = "../archive.rs"]
mod archive;

use archive::Archive;

const TURNS: u32 = 3;
const QUESTIONS: u32 = 20;

fn main() {
    let sizes: Option<Vec<f64>> = std::env::args().skip(1).map(|text| text.parse().ok()).collect();
    let sizes = match sizes {
        Some(sizes) if !sizes.is_empty() => sizes,
        _ => {
            eprintln!("bench MIB ..");
            exit(2);
        }
    };
    match std::env::var("EMULATOR") {
        Ok(name) if !name.is_empty() => {
            println!("emulator: {}; a time says nothing by itself, a ratio is a hint at most", name)
        }
        _ => println!("emulator: none"),
    }
    for mib in sizes {
        bench(mib);
    }
}

fn bench(mib: f64) {
    let files = national(&mut Rng::new(1), &National::of_bytes((mib * MIB as f64) as usize));
    let [a, b, c, d, e, f] = &files;
    let files: [&[u8]; 6] = [a, b, c, d, e, f];
    let needed = helper_needed(files);
    let [number, _, line, words, _] = Reader.load(files, &mut [], &mut vec![0; needed]);
    assert_eq!((number, line), (20, 0));
    let load = |boundary: &dyn Boundary| {
        let (mut table, mut helper) = (vec![u32::MAX; words as usize], vec![u32::MAX; needed]);
        let (answer, time) = timed(|| boundary.load(files, &mut table, &mut helper));
        table.extend(answer);
        (table, time)
    };
    let (table, archive, reader) = least("load", load);
    println!(
        "FPLAN {} bytes, {} services, {} stops, {} bit fields, table {} words",
        e.len(),
        table[SERVICES_AT],
        table[STOPS_AT],
        table[BIT_FIELDS_AT],
        words
    );
    println!("  {:<12} {:>12} {:>12} {:>8}", "ms", "archive", "reader", "ratio");
    show("load", archive, reader, 1);
    for (name, ask) in [("walk", walk as Ask), ("day", day), ("interchange", interchange)] {
        let (_, archive, reader) = least(name, |boundary| asked(boundary, &table, ask));
        show(name, archive, reader, QUESTIONS);
    }
}

/// The least times of the archive and of the reader, by turns, so that neither always finds the machine cold; and what
/// all turns gave.
fn least(name: &str, work: impl Fn(&dyn Boundary) -> (Vec<u32>, Duration)) -> (Vec<u32>, Duration, Duration) {
    let (given, mut reader) = work(&Reader);
    let mut archive = Duration::MAX;
    for _ in 0..TURNS {
        let (by_archive, archive_time) = work(&Archive);
        let (by_reader, reader_time) = work(&Reader);
        assert!(by_archive == given && by_reader == given, "the answers differ: {}", name);
        archive = archive.min(archive_time);
        reader = reader.min(reader_time);
    }
    (given, archive, reader)
}

fn timed<T>(work: impl FnOnce() -> T) -> (T, Duration) {
    let start = Instant::now();
    let result = work();
    (result, start.elapsed())
}

fn show(what: &str, archive: Duration, reader: Duration, times: u32) {
    let each = |time: Duration| 1_000.0 * time.as_secs_f64() / f64::from(times);
    let ratio = archive.as_secs_f64() / reader.as_secs_f64();
    println!("  {:<12} {:>12.3} {:>12.3} {:>8.2}", what, each(archive), each(reader), ratio);
}

/// Draws a question, and gives its answer and the time of the call. Rows are lent to a walk.
type Ask = fn(&dyn Boundary, &[u32], &mut Rng, &mut [u32]) -> (Vec<u32>, Duration);

/// All answers with the words lent, and the time of all calls; both boundaries start the generator alike.
fn asked(boundary: &dyn Boundary, table: &[u32], ask: Ask) -> (Vec<u32>, Duration) {
    let (mut rng, mut rows) = (Rng::new(2), vec![0; MOST_ROW_WORDS]);
    let (mut given, mut total) = (Vec::new(), Duration::ZERO);
    for _ in 0..QUESTIONS {
        rows.fill(u32::MAX);
        let (answer, time) = ask(boundary, table, &mut rng, &mut rows);
        given.extend(answer);
        given.extend(&rows);
        total += time;
    }
    (given, total)
}

fn date(rng: &mut Rng, table: &[u32]) -> [u32; 3] {
    let (day, month, year) = date_of(table[FIRST_DAY_AT] + rng.below(table[PERIOD_DAYS_AT]));
    [day, month, year]
}

fn walk(boundary: &dyn Boundary, table: &[u32], rng: &mut Rng, rows: &mut [u32]) -> (Vec<u32>, Duration) {
    let (service, repeat, date) = (rng.below(table[SERVICES_AT]), rng.below(4), date(rng, table));
    let (answer, time) = timed(|| boundary.walk(table, service, repeat, date, rows));
    (answer.to_vec(), time)
}

fn day(boundary: &dyn Boundary, table: &[u32], rng: &mut Rng, _: &mut [u32]) -> (Vec<u32>, Duration) {
    let (date, field) =
        (date(rng, table), table[HEADER_WORDS + BIT_FIELD_WORDS * rng.below(table[BIT_FIELDS_AT]) as usize]);
    let (answer, time) = timed(|| boundary.day(table, date, field));
    (answer.to_vec(), time)
}

fn interchange(boundary: &dyn Boundary, table: &[u32], rng: &mut Rng, _: &mut [u32]) -> (Vec<u32>, Duration) {
    let first_stop = HEADER_WORDS + BIT_FIELD_WORDS * table[BIT_FIELDS_AT] as usize;
    let (stop, classes) = (table[first_stop + STOP_WORDS * rng.below(table[STOPS_AT]) as usize], [rng.below(4), 1]);
    let (answer, time) = timed(|| boundary.interchange(table, stop, classes));
    (answer.to_vec(), time)
}
