//! Questions by the linked archive, plain and by an index, beside the ordinary program's (docs/ordinary-loader), on the table of a large delivery, for a tool that counts
//! instructions: `tools/questions.sh` makes and runs it.
//!
//!     questions write MIB DIRECTORY                      loads a delivery with an FPLAN of so many MiB, and writes its table, index and BAHNHOF, and what to ask
//!     questions ask plain|quick|ordinary DIRECTORY       asks all; prints a line for each sort of question with how many were asked
//!
//! Each sort is asked inside a function of its own, `measured_..`, so that its instructions can be told from the rest. A function that the archive does not have yet is left out:
//! the features say which it has. 2,000 calls of the table are moved to one stop, the hub.

use std::collections::HashMap;
use std::convert::TryInto;
use std::error::Error;
use std::fs;
use std::path::Path;
use std::process::exit;

use compare::boundary::{Boundary, Reader};
use compare::functions::Connections;
use compare::generate::plan::date_of;
use compare::generate::raw_table::{parts, RawService, RawTable};
use compare::generate::{counted_helper, national, National, Rng, MIB};
use compare::layout::{
    BIT_FIELD_NUMBER_AT, CALL_PLACE_AT, CLASS_CODE_AT, FIRST_DAY_AT, KIND_AT, KIND_Z, MOST_ROW_WORDS, PERIOD_DAYS_AT,
    REPEATS_AT, SERVICES_AT, STOP_NUMBER_AT,
};
use compare::reader::connection::PART_WORDS;
use compare::reader::{index_words, BoardQuestion};
use ordinary_loader::{Departure, Part, Timetable};

#[path = "../archive.rs"]
mod archive;
#[cfg(feature = "boards")]
#[path = "../exported/boards.rs"]
mod boards;
#[cfg(feature = "connections")]
#[path = "../exported/connections.rs"]
mod connections;
#[cfg(feature = "indexes")]
#[path = "../exported/indexes.rs"]
mod indexes;
#[path = "../ordinary.rs"]
#[allow(dead_code)]
mod ordinary;
#[cfg(feature = "quick")]
#[path = "../exported/quick.rs"]
mod quick;
#[cfg(feature = "quick_boards")]
#[path = "../exported/quick_boards.rs"]
mod quick_boards;
#[cfg(feature = "quick_connections")]
#[path = "../exported/quick_connections.rs"]
mod quick_connections;
#[cfg(feature = "writes")]
#[path = "../exported/writes.rs"]
mod writes;

use archive::Archive;

/// So many questions of each sort.
const QUESTIONS: usize = 20;

/// So many calls are at the hub.
const HUB_CALLS: usize = 2_000;

/// A usual walk has so many calls, all of which it lists; and a usual stop has so many: the same on tables of every size.
const USUAL_CALLS: usize = 15;
const USUAL_STOP_CALLS: u32 = 8;

/// Words of a question: what it asks, filled up with 0.
const QUESTION_WORDS: usize = 6;

/// The sorts of questions that are drawn; each has QUESTIONS of them.
const SORTS: [&str; 7] = ["walk", "day", "interchange", "between", "name", "board", "hub"];

fn main() {
    let words: Vec<String> = std::env::args().skip(1).collect();
    let words: Vec<&str> = words.iter().map(String::as_str).collect();
    if let Err(error) = run(&words) {
        eprintln!("questions: {}", error);
        exit(1);
    }
}

fn run(words: &[&str]) -> Result<(), Box<dyn Error>> {
    match words {
        ["write", mib, directory] => write(Path::new(directory), (mib.parse::<f64>()? * MIB as f64) as usize),
        ["ask", by, directory] => {
            let asked = Asked::read(Path::new(directory))?;
            match *by {
                "plain" => ask_plain(&asked),
                "quick" => ask_quick(&asked),
                "ordinary" => ask_ordinary(&asked),
                _ => return Err(format!("{} is none of plain, quick and ordinary", by).into()),
            }
            Ok(())
        }
        _ => Err("write MIB DIRECTORY, or ask plain|quick|ordinary DIRECTORY".into()),
    }
}

/// A table and what to ask.
struct Asked {
    table: Vec<u32>,
    index: Vec<u32>,
    bahnhof: Vec<u8>,
    questions: HashMap<&'static str, Vec<[u32; QUESTION_WORDS]>>,
    /// A connection of three parts that holds.
    parts: Vec<u32>,
}

fn write(directory: &Path, fplan_bytes: usize) -> Result<(), Box<dyn Error>> {
    let files = national(&mut Rng::new(1), &National::of_bytes(fplan_bytes));
    let table = with_hub(&table_of(&files));
    let index = index_words(&table).ok_or("no table")?;
    let questions = drawn(&table);
    fs::create_dir_all(directory)?;
    let words = |words: &[u32]| words.iter().flat_map(|word| word.to_le_bytes()).collect::<Vec<u8>>();
    fs::write(directory.join("TABLE"), words(&table))?;
    fs::write(directory.join("INDEX"), words(&index))?;
    fs::write(directory.join("QUESTIONS"), words(&questions))?;
    fs::write(directory.join("PARTS"), words(&holding(&table)))?;
    fs::write(directory.join("BAHNHOF"), &files[2])?;
    Ok(())
}

impl Asked {
    fn read(directory: &Path) -> Result<Asked, Box<dyn Error>> {
        let words = |name: &str| -> Result<Vec<u32>, Box<dyn Error>> {
            let bytes = fs::read(directory.join(name))?;
            let word = |word: &[u8]| u32::from_le_bytes([word[0], word[1], word[2], word[3]]);
            Ok(bytes.chunks_exact(4).map(word).collect())
        };
        let drawn = words("QUESTIONS")?;
        let sorts = drawn.chunks_exact(QUESTIONS * QUESTION_WORDS).map(|sort| {
            let question = |words: &[u32]| words.try_into().expect("as many words as a question has");
            sort.chunks_exact(QUESTION_WORDS).map(question).collect()
        });
        Ok(Asked {
            table: words("TABLE")?,
            index: words("INDEX")?,
            bahnhof: fs::read(directory.join("BAHNHOF"))?,
            questions: SORTS.into_iter().zip(sorts).collect(),
            parts: words("PARTS")?,
        })
    }

    /// Asks each question of a sort inside its function.
    fn each(&self, sort: &str, measured: fn(&mut dyn FnMut()), mut ask: impl FnMut(&[u32; QUESTION_WORDS])) {
        let questions = &self.questions[sort];
        measured(&mut || questions.iter().for_each(&mut ask));
        println!("{} {}", sort, questions.len());
    }
}

fn board_of(words: &[u32; QUESTION_WORDS]) -> BoardQuestion {
    let [stop, d, m, y, first, last] = *words;
    BoardQuestion { stop, date: [d, m, y], first, last }
}

fn table_of(files: &[Vec<u8>; 6]) -> Vec<u32> {
    let slices: Vec<&[u8]> = files.iter().map(Vec::as_slice).collect();
    let mut table = vec![0; 16 + slices.iter().map(|file| file.len()).sum::<usize>() / 4];
    let mut helper = vec![0; counted_helper(files)];
    match Reader.load(slices.try_into().expect("as many files as there are"), &mut table, &mut helper) {
        [0, _, _, words, _] => table.truncate(words as usize),
        refused => panic!("refused {:?}", refused),
    }
    table
}

/// The table with so many of its calls moved to its first stop, spread over all services.
fn with_hub(table: &[u32]) -> Vec<u32> {
    let mut raw = parts(table);
    let calls: usize = raw.services.iter().map(|service| service.calls.len()).sum();
    let step = (calls / HUB_CALLS).max(1);
    let all = raw.services.iter_mut().flat_map(|service| service.calls.iter_mut());
    all.step_by(step).take(HUB_CALLS).for_each(|call| call[CALL_PLACE_AT] = 0);
    raw.words()
}

/// The questions of each sort, in the order of `SORTS`.
fn drawn(table: &[u32]) -> Vec<u32> {
    let (rng, raw, mut rows) = (&mut Rng::new(2), parts(table), vec![0; MOST_ROW_WORDS]);
    let date = |rng: &mut Rng| {
        let (d, m, y) = date_of(table[FIRST_DAY_AT] + rng.below(table[PERIOD_DAYS_AT]));
        [d, m, y]
    };
    let mut all = Vec::new();
    let mut add = |words: &[u32]| {
        all.extend_from_slice(words);
        all.resize(all.len() + QUESTION_WORDS - words.len(), 0);
    };
    let services = (0..).zip(&raw.services);
    let usual: Vec<u32> =
        services.filter(|(_, service)| service.calls.len() == USUAL_CALLS).map(|(at, _)| at).collect();
    let mut walks = 0;
    while walks < QUESTIONS {
        let (service, [d, m, y]) = (rng.pick(&usual), date(rng));
        if Reader.walk(table, service, 0, [d, m, y], &mut rows) == [0, USUAL_CALLS as u32, 0] {
            add(&[service, d, m, y]);
            walks += 1;
        }
    }
    let stop = |rng: &mut Rng| raw.stops[rng.index(raw.stops.len())][STOP_NUMBER_AT];
    for _ in 0..QUESTIONS {
        let [d, m, y] = date(rng);
        add(&[raw.bitfields[rng.index(raw.bitfields.len())][BIT_FIELD_NUMBER_AT], d, m, y]);
    }
    for _ in 0..QUESTIONS {
        add(&[stop(rng), rng.below(14), rng.below(14)]);
    }
    for _ in 0..QUESTIONS {
        let category = |rng: &mut Rng| raw.classes[rng.index(raw.classes.len())][CLASS_CODE_AT];
        add(&[stop(rng), category(rng), category(rng)]);
    }
    for _ in 0..QUESTIONS {
        add(&[stop(rng), u32::from(b'd'), 1]);
    }
    // a usual stop all day; the hub for two hours
    let usual = usual_stops(&raw);
    for _ in 0..QUESTIONS {
        let [d, m, y] = date(rng);
        add(&[rng.pick(&usual), d, m, y, 0, u32::MAX]);
    }
    for _ in 0..QUESTIONS {
        let ([d, m, y], first) = (date(rng), rng.between(300, 1_200));
        add(&[raw.stops[0][STOP_NUMBER_AT], d, m, y, first, first + 120]);
    }
    all
}

/// Stops with a usual number of calls, all of services with one run.
fn usual_stops(raw: &RawTable) -> Vec<u32> {
    let mut calls = vec![0; raw.stops.len()];
    for service in &raw.services {
        let one_run = service.head[KIND_AT] == KIND_Z && service.head[REPEATS_AT] == 0;
        // one of several runs makes a stop unusual
        service.calls.iter().for_each(|call| calls[call[CALL_PLACE_AT] as usize] += if one_run { 1 } else { 1_000 });
    }
    let stops = raw.stops.iter().zip(calls).filter(|(_, calls)| *calls == USUAL_STOP_CALLS);
    stops.map(|(stop, _)| stop[STOP_NUMBER_AT]).collect()
}

/// A connection of three parts that holds, looked for by the ordinary program's boards.
fn holding(table: &[u32]) -> Vec<u32> {
    let (rng, timetable) = (&mut Rng::new(3), Timetable::from_words(table));
    loop {
        let (d, m, y) = date_of(table[FIRST_DAY_AT] + rng.below(table[PERIOD_DAYS_AT]));
        let first = Part { service: rng.below(table[SERVICES_AT]), repeat: 0, date: [d, m, y], boards: 0, alights: 1 };
        let mut found = vec![first];
        while found.len() < 3 && follow(rng, &timetable, &mut found) {}
        let parts: Vec<u32> = found.iter().flat_map(part_words).collect();
        if found.len() == 3 && Reader.connection(table, &[], &parts) == [0, 0] {
            return parts;
        }
    }
}

/// Adds a part that departs from where the last one ends, on the same date, within two hours.
fn follow(rng: &mut Rng, timetable: &Timetable, found: &mut Vec<Part>) -> bool {
    let (last, mut rows, mut board) = (found[found.len() - 1], Vec::new(), Vec::new());
    // whole routes only
    if timetable.check_connection(&[last]).is_err()
        || timetable.walk(last.service, last.repeat, last.date, &mut rows).is_err()
    {
        return false;
    }
    let arrives = match rows.get(last.alights as usize) {
        Some(row) => row,
        None => return false,
    };
    let (from, to) = (arrives.arrival + 20, arrives.arrival + 140);
    if timetable.board(arrives.stop, last.date, from, to, &mut board).is_err() || board.is_empty() {
        return false;
    }
    let next = board[rng.index(board.len())];
    found.push(Part {
        service: next.service,
        repeat: next.repeat,
        date: last.date,
        boards: next.place,
        alights: next.place + 1,
    });
    timetable.check_connection(found).is_ok()
}

fn part_words(part: &Part) -> [u32; PART_WORDS] {
    let [d, m, y] = part.date;
    [part.service, part.repeat, d, m, y, part.boards, part.alights]
}

macro_rules! measured {
    ($($name:ident = $number:literal),* $(,)?) => {
        $(
            #[no_mangle]
            #[inline(never)]
            fn $name(ask: &mut dyn FnMut()) {
                // told apart, so that no two are made one, and not left before the end
                mark($number);
                ask();
                mark($number);
            }
        )*
    };
}

measured!(
    measured_walk = 1,
    measured_day = 2,
    measured_interchange = 3,
    measured_between = 4,
    measured_name = 5,
    measured_board = 6,
    measured_hub = 7,
    measured_connection = 8,
    measured_write = 9,
    measured_index = 10,
    measured_check = 11,
    measured_sound = 12,
    measured_made = 13,
);

#[inline(always)]
fn mark(number: u32) {
    // SAFETY: a place on the stack.
    unsafe { std::ptr::read_volatile(&number) };
}

/// Once inside its function.
fn once(name: &str, units: usize, measured: fn(&mut dyn FnMut()), mut ask: impl FnMut()) {
    measured(&mut ask);
    println!("{} {}", name, units);
}

/// Lines of 60 bytes that a table is written in.
fn lines(table: &[u32]) -> usize {
    let raw = parts(table);
    let of_service = |service: &RawService| {
        1 + service.calls.len() + service.categories.len() + service.days.len() + service.others.len()
    };
    raw.services.iter().map(of_service).sum()
}

fn answered(answer: [u32; 2]) {
    assert_eq!(answer[0], 0, "refused");
}

/// All words looked at (21), and little else: a date that is none.
fn ask_sound(asked: &Asked) {
    once("sound", 1, measured_sound, || assert_eq!(Archive.day(&asked.table, [0; 3], 0), [22, 0]));
}

fn ask_plain(asked: &Asked) {
    let (table, mut rows) = (&asked.table[..], vec![0; MOST_ROW_WORDS]);
    ask_sound(asked);
    asked.each("walk", measured_walk, |[service, d, m, y, ..]| {
        assert_eq!(Archive.walk(table, *service, 0, [*d, *m, *y], &mut rows)[0], 0);
    });
    asked.each("day", measured_day, |[field, d, m, y, ..]| answered(Archive.day(table, [*d, *m, *y], *field)));
    asked.each("interchange", measured_interchange, |[stop, a, b, ..]| {
        answered(Archive.interchange(table, *stop, [*a, *b]));
    });
    asked.each("between", measured_between, |[stop, a, b, ..]| {
        answered(Archive.interchange_between(table, *stop, [*a, *b]));
    });
    asked.each("name", measured_name, |[stop, language, kind, ..]| {
        assert_eq!(Archive.stop_name(table, &asked.bahnhof, *stop, [*language, *kind])[0], 0);
    });
    #[cfg(feature = "boards")]
    {
        use compare::functions::Boards;
        let mut list = vec![0; 1 << 20];
        let mut ask = |words: &[u32; QUESTION_WORDS]| {
            assert_eq!(boards::Exported.board(table, &asked.index, &board_of(words), &mut list)[0], 0);
        };
        asked.each("board", measured_board, &mut ask);
        asked.each("hub", measured_hub, &mut ask);
    }
    #[cfg(feature = "connections")]
    once("connection", 1, measured_connection, || {
        answered(connections::Exported.connection(table, &[], &asked.parts));
    });
    #[cfg(feature = "writes")]
    {
        use compare::functions::Writes;
        let units = lines(table);
        let mut text = vec![0; 60 * units];
        once("write", units, measured_write, || assert_eq!(writes::Exported.write(table, &mut text)[0], 0));
    }
    #[cfg(feature = "indexes")]
    {
        use compare::functions::Indexes;
        let mut made = vec![0; asked.index.len()];
        once("index", 1, measured_index, || assert_eq!(indexes::Exported.index(table, &mut made)[0], 0));
        assert!(made == asked.index, "the reader's index is another");
        once("check", 1, measured_check, || assert_eq!(indexes::Exported.check_index(table, &made), [0]));
    }
}

#[cfg_attr(not(any(feature = "quick", feature = "quick_boards", feature = "quick_connections")), allow(unused))]
fn ask_quick(asked: &Asked) {
    let (table, index) = (&asked.table[..], &asked.index[..]);
    #[cfg(feature = "quick")]
    {
        use compare::functions::Quick;
        let (by, mut rows) = (quick::Exported, vec![0; MOST_ROW_WORDS]);
        asked.each("walk", measured_walk, |[service, d, m, y, ..]| {
            assert_eq!(by.walk(table, index, *service, 0, [*d, *m, *y], &mut rows)[0], 0);
        });
        asked.each("day", measured_day, |[field, d, m, y, ..]| {
            answered(by.day(table, index, [*d, *m, *y], *field));
        });
        asked.each("interchange", measured_interchange, |[stop, a, b, ..]| {
            answered(by.interchange(table, index, *stop, [*a, *b]));
        });
        asked.each("between", measured_between, |[stop, a, b, ..]| {
            answered(by.interchange_between(table, index, *stop, [*a, *b]));
        });
        asked.each("name", measured_name, |[stop, language, kind, ..]| {
            assert_eq!(by.stop_name(table, index, &asked.bahnhof, *stop, [*language, *kind])[0], 0);
        });
    }
    #[cfg(feature = "quick_boards")]
    {
        use compare::functions::Boards;
        let mut list = vec![0; 1 << 20];
        let mut ask = |words: &[u32; QUESTION_WORDS]| {
            assert_eq!(quick_boards::Exported.board(table, index, &board_of(words), &mut list)[0], 0);
        };
        asked.each("board", measured_board, &mut ask);
        asked.each("hub", measured_hub, &mut ask);
    }
    #[cfg(feature = "quick_connections")]
    once("connection", 1, measured_connection, || {
        answered(quick_connections::Exported.connection(table, index, &asked.parts));
    });
}

fn ask_ordinary(asked: &Asked) {
    let mut made = None;
    once("index", 1, measured_made, || made = Some(Timetable::from_words(&asked.table)));
    let (timetable, mut rows) = (made.expect("made"), Vec::new());
    asked.each("walk", measured_walk, |[service, d, m, y, ..]| {
        assert_eq!(timetable.walk(*service, 0, [*d, *m, *y], &mut rows), Ok(()));
    });
    asked.each("day", measured_day, |[field, d, m, y, ..]| assert!(timetable.day([*d, *m, *y], *field).is_ok()));
    asked.each("interchange", measured_interchange, |[stop, a, b, ..]| {
        assert!(timetable.interchange(*stop, *a, *b).is_ok());
    });
    asked.each("between", measured_between, |[stop, a, b, ..]| {
        assert!(timetable.interchange_between(*stop, *a, *b).is_ok());
    });
    asked.each("name", measured_name, |[stop, language, kind, ..]| {
        assert!(timetable.stop_name(&asked.bahnhof, *stop, *language, *kind).is_ok());
    });
    let mut board: Vec<Departure> = Vec::with_capacity(1 << 18);
    let mut ask = |words: &[u32; QUESTION_WORDS]| {
        let BoardQuestion { stop, date, first, last } = board_of(words);
        assert_eq!(timetable.board(stop, date, first, last, &mut board), Ok(()));
    };
    asked.each("board", measured_board, &mut ask);
    asked.each("hub", measured_hub, &mut ask);
    let parts = ordinary::parts_of(&asked.parts);
    once("connection", 1, measured_connection, || assert_eq!(timetable.check_connection(&parts), Ok(())));
    let units = lines(&asked.table);
    let mut text = Vec::with_capacity(60 * units);
    once("write", units, measured_write, || timetable.write_fplan(&mut text).expect("memory"));
    assert_eq!(text.len(), 60 * units);
}
