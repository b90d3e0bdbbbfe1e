//! The load of the linked archive beside the ordinary loader (docs/ordinary-loader), on large deliveries: `tools/national.sh`
//! makes and runs it.
//!
//!     national write SIZE DIRECTORY               writes a delivery; the script says what a SIZE is
//!     national time DIRECTORY                     loads it by both in turn, and prints the least times
//!     national load archive|ordinary DIRECTORY    loads it once, for a tool that counts
//!
//! Both must accept it and write the same words.

use std::error::Error;
use std::path::Path;
use std::process::exit;
use std::time::Duration;

use compare::boundary::Boundary;
use compare::files;
use compare::generate::{
    empty_lines, national, shortest_categories, shortest_in, shortest_records, worst_numbers, National, Numbers, Rng,
    MIB, USUAL_CATEGORIES, WORST_STOP_LINES,
};
use compare::reader::helper_needed;

#[path = "../archive.rs"]
mod archive;
#[path = "../thread_time.rs"]
mod thread_time;

use archive::Archive;
use thread_time::thread_time;

/// Turns of both: as many as are begun in this time, but not fewer and not more than so many.
const TURNS_BEGUN_IN: Duration = Duration::from_secs(3);
const LEAST_TURNS: u32 = 3;
const MOST_TURNS: u32 = 25;

fn main() {
    let words: Vec<String> = std::env::args().skip(1).collect();
    let words: Vec<&str> = words.iter().map(String::as_str).collect();
    if let Err(error) = run(&words) {
        eprintln!("national: {}", error);
        exit(1);
    }
}

fn run(words: &[&str]) -> Result<(), Box<dyn Error>> {
    match words {
        ["write", size, directory] => files::write(Path::new(directory), &delivery(size)?)?,
        ["time", directory] => show_times(&files::read(Path::new(directory))?),
        ["load", "archive", directory] => {
            loaded(&files::read(Path::new(directory))?, archive_load);
        }
        ["load", "ordinary", directory] => {
            loaded(&files::read(Path::new(directory))?, ordinary_load);
        }
        _ => return Err("write SIZE DIRECTORY, time DIRECTORY, or load archive|ordinary DIRECTORY".into()),
    }
    Ok(())
}

/// The delivery of a size as it is written.
fn delivery(size: &str) -> Result<[Vec<u8>; 6], Box<dyn Error>> {
    let rng = &mut Rng::new(1);
    let words: Vec<&str> = size.split(':').collect();
    Ok(match words[..] {
        ["empty", mib] => empty_lines(bytes_of(mib)?),
        ["shortest", mib] => shortest_records(rng, bytes_of(mib)?, Numbers::Consecutive),
        ["shortest", mib, numbers] => shortest_records(rng, bytes_of(mib)?, numbers.parse()?),
        ["bitfeld", mib] => shortest_in(rng, bytes_of(mib)?, 2),
        ["bahnhof", mib] => shortest_in(rng, bytes_of(mib)?, 3),
        ["umsteigb", mib] => shortest_in(rng, bytes_of(mib)?, 4),
        ["zugart", mib] => shortest_categories(rng, bytes_of(mib)?),
        ["categories", mib, count] => {
            national(rng, &National { categories: count.parse()?, ..National::of_bytes(bytes_of(mib)?) })
        }
        ["worst", mib] => worst_numbers(rng, bytes_of(mib)?, WORST_STOP_LINES),
        ["worst", mib, lines] => worst_numbers(rng, bytes_of(mib)?, lines.parse()?),
        [mib] => national(rng, &National::of_bytes(bytes_of(mib)?)),
        [mib, stops, fields] => national(rng, &sized(mib, stops, fields, Numbers::Consecutive)?),
        [mib, stops, fields, numbers] => national(rng, &sized(mib, stops, fields, numbers.parse()?)?),
        _ => return Err(format!("{} is no size", size).into()),
    })
}

fn sized(mib: &str, stops: &str, fields: &str, numbers: Numbers) -> Result<National, Box<dyn Error>> {
    let (stops, bit_fields) = (stops.parse()?, fields.parse()?);
    Ok(National { fplan_bytes: bytes_of(mib)?, stops, bit_fields, numbers, categories: USUAL_CATEGORIES })
}

fn bytes_of(mib: &str) -> Result<usize, Box<dyn Error>> {
    Ok((mib.parse::<f64>()? * MIB as f64) as usize)
}

/// A loader, with words for the table and helper words: the words used, or a refusal's number.
type Load = fn([&[u8]; 6], &mut [u32], &mut [u32]) -> Result<u32, u32>;

fn archive_load(files: [&[u8]; 6], table: &mut [u32], helper: &mut [u32]) -> Result<u32, u32> {
    match Archive.load(files, table, helper) {
        [0, _, _, words, _] => Ok(words),
        [number, ..] => Err(number),
    }
}

/// By a name of its own, so that its instructions can be told from the rest. It has maps of its own.
#[no_mangle]
#[inline(never)]
fn ordinary_load(files: [&[u8]; 6], table: &mut [u32], _: &mut [u32]) -> Result<u32, u32> {
    let [eckdaten, bitfeld, bahnhof, umsteigb, fplan, zugart] = files;
    let files = ordinary_loader::Files { eckdaten, bitfeld, bahnhof, umsteigb, fplan, zugart };
    ordinary_loader::load(&files, table).map_err(|refusal| refusal.number)
}

/// The table of a delivery, and the thread's time for it. The words lent are written before, and are enough: each record
/// has more bytes in its file than in the table.
fn loaded(files: &[Vec<u8>; 6], load: Load) -> (Vec<u32>, Duration) {
    let [a, b, c, d, e, f] = files;
    let files: [&[u8]; 6] = [a, b, c, d, e, f];
    let mut table = vec![u32::MAX; 16 + files.iter().map(|file| file.len()).sum::<usize>() / 4];
    let mut helper = vec![u32::MAX; helper_needed(files)];
    let start = thread_time();
    let answer = load(files, &mut table, &mut helper);
    let time = thread_time() - start;
    match answer {
        Ok(words) => table.truncate(words as usize),
        Err(number) => panic!("refused {}", number),
    }
    (table, time)
}

fn show_times(files: &[Vec<u8>; 6]) {
    let (mut archive, mut ordinary, mut turns) = (Duration::MAX, Duration::MAX, 0);
    let start = thread_time();
    while turns < LEAST_TURNS || (turns < MOST_TURNS && thread_time() - start < TURNS_BEGUN_IN) {
        let (by_archive, archive_time) = loaded(files, archive_load);
        let (by_ordinary, ordinary_time) = loaded(files, ordinary_load);
        assert!(by_archive == by_ordinary, "the tables differ");
        archive = archive.min(archive_time);
        ordinary = ordinary.min(ordinary_time);
        turns += 1;
    }
    let (archive, ordinary) = (archive.as_secs_f64(), ordinary.as_secs_f64());
    println!("  {:<25} {:>10} {:>10} {:>8}", "", "archive", "ordinary", "ratio");
    println!(
        "  {:<25} {:>10.3} {:>10.3} {:>8.2}",
        format!("ms, least of {}", turns),
        1_000.0 * archive,
        1_000.0 * ordinary,
        archive / ordinary
    );
}
