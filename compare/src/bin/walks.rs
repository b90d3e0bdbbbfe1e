//! The walks of the linked archive beside the independent reader's, on the table of a large delivery, for a tool that counts instructions:
//! `tools/walks.sh` makes and runs it.
//!
//!     walks write MIB FILE                           loads a delivery with an FPLAN of so many MiB, and writes walks to ask, then its table
//!     walks ask archive|reader rows|refused FILE     asks these walks; `refused` asks each on a date that is none
//!
//! A walk first looks whether the words are a table (21), which reads all of them. One that is refused for its date (22) does that and little else,
//! so that the difference is what the walk itself takes: finding the service, its legs, and for each call its stop and its times.

use std::convert::TryInto;
use std::error::Error;
use std::fs;
use std::process::exit;

use compare::boundary::{Boundary, Reader};
use compare::generate::plan::date_of;
use compare::generate::{counted_helper, national, National, Rng, MIB};
use compare::layout::{FIRST_DAY_AT, MOST_ROW_WORDS, PERIOD_DAYS_AT, SERVICES_AT};

#[path = "../archive.rs"]
mod archive;

use archive::Archive;

/// So many walks, each with rows.
const WALKS: usize = 20;

/// Service, and day, month and year of a walk.
const WALK_WORDS: usize = 4;

fn main() {
    let words: Vec<String> = std::env::args().skip(1).collect();
    let words: Vec<&str> = words.iter().map(String::as_str).collect();
    if let Err(error) = run(&words) {
        eprintln!("walks: {}", error);
        exit(1);
    }
}

fn run(words: &[&str]) -> Result<(), Box<dyn Error>> {
    match words {
        ["write", mib, file] => {
            let table = table_of((mib.parse::<f64>()? * MIB as f64) as usize);
            let walks = drawn(&table);
            let bytes = walks.iter().chain(&table).flat_map(|word| word.to_le_bytes());
            fs::write(file, bytes.collect::<Vec<u8>>())?;
        }
        ["ask", by, how, file] => {
            let bytes = fs::read(file)?;
            let words: Vec<u32> =
                bytes.chunks_exact(4).map(|word| u32::from_le_bytes([word[0], word[1], word[2], word[3]])).collect();
            let (walks, table) = words.split_at(WALKS * WALK_WORDS);
            let walk = match *by {
                "archive" => archive_walk,
                "reader" => reader_walk,
                _ => return Err(format!("{} is neither archive nor reader", by).into()),
            };
            println!("{} rows", asked(walks, table, walk, *how == "refused"));
        }
        _ => return Err("write MIB FILE, or ask archive|reader rows|refused FILE".into()),
    }
    Ok(())
}

fn table_of(fplan_bytes: usize) -> Vec<u32> {
    let files = national(&mut Rng::new(1), &National::of_bytes(fplan_bytes));
    let slices: Vec<&[u8]> = files.iter().map(Vec::as_slice).collect();
    let mut table = vec![0; 16 + slices.iter().map(|file| file.len()).sum::<usize>() / 4];
    let mut helper = vec![0; counted_helper(&files)];
    match Reader.load(slices.try_into().expect("as many files as there are"), &mut table, &mut helper) {
        [0, _, _, words, _] => table.truncate(words as usize),
        refused => panic!("refused {:?}", refused),
    }
    table
}

/// Walks of any services on any dates that list rows.
fn drawn(table: &[u32]) -> Vec<u32> {
    let (rng, mut rows) = (&mut Rng::new(2), vec![0; MOST_ROW_WORDS]);
    let mut walks = Vec::new();
    while walks.len() < WALKS * WALK_WORDS {
        let (day, month, year) = date_of(table[FIRST_DAY_AT] + rng.below(table[PERIOD_DAYS_AT]));
        let service = rng.below(table[SERVICES_AT]);
        if let [0, 1..=u32::MAX, _] = Reader.walk(table, service, 0, [day, month, year], &mut rows) {
            walks.extend([service, day, month, year]);
        }
    }
    walks
}

type Walk = fn(&[u32], u32, [u32; 3], &mut [u32]) -> [u32; 3];

/// By names of their own, so that their instructions can be told from the rest.
#[no_mangle]
#[inline(never)]
fn archive_walk(table: &[u32], service: u32, date: [u32; 3], rows: &mut [u32]) -> [u32; 3] {
    Archive.walk(table, service, 0, date, rows)
}

#[no_mangle]
#[inline(never)]
fn reader_walk(table: &[u32], service: u32, date: [u32; 3], rows: &mut [u32]) -> [u32; 3] {
    Reader.walk(table, service, 0, date, rows)
}

/// The rows of all walks, each answered as it must be.
fn asked(walks: &[u32], table: &[u32], walk: Walk, is_refused: bool) -> u32 {
    let (mut rows, mut listed) = (vec![0; MOST_ROW_WORDS], 0);
    for asked in walks.chunks_exact(WALK_WORDS) {
        let date = if is_refused { [0; 3] } else { [asked[1], asked[2], asked[3]] };
        match (walk(table, asked[0], date, &mut rows), is_refused) {
            ([0, calls, _], false) => listed += calls,
            ([22, ..], true) => {}
            (answer, _) => panic!("answered {:?}", answer),
        }
    }
    listed
}
