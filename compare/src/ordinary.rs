//! The questions of the ordinary program (docs/ordinary-loader) beside the reader's, on a delivery that breaks no rule. A module of the programs that link it.

use compare::boundary::{Boundary, Reader};
use compare::differ::rng_of;
use compare::functions::Connections;
use compare::generate::boards::board_question;
use compare::generate::connections::proposed;
use compare::generate::{name_question, other_bytes, question, valid, NameQuestion, Question, Size};
use compare::layout::{MOST_ROW_WORDS, ROW_WORDS};
use compare::reader::board::departures;
use compare::reader::connection::PART_WORDS;
use compare::reader::write::text_of;
use compare::reader::BoardQuestion;
use ordinary_loader::{Bad, Part, Row, Timetable};

/// So many questions of each sort.
const QUESTIONS: u32 = 4;

/// Asks both; panics where they differ.
pub fn compare_questions(seed: u64, index: u64) {
    let rng = &mut rng_of(!seed, index);
    let size = if index % 20 == 0 { Size::Medium } else { Size::Small };
    let case = valid(rng, size);
    let (mut table, mut helper) = (vec![0; case.room], case.helper.clone());
    match Reader.load(case.slices(), &mut table, &mut helper) {
        [0, _, _, words, _] => table.truncate(words as usize),
        refused => panic!("refused {:?}", refused),
    }
    let timetable = Timetable::from_words(&table);
    let told = format!("case {} of seed {}", index, seed);
    for _ in 0..QUESTIONS {
        let asked = question(rng, &table);
        assert_eq!(answered(&timetable, asked), plain(&table, asked), "{}: {:?}", told, asked);

        let NameQuestion { stop, language, kind } = name_question(rng, &table);
        let bytes = other_bytes(rng, &table, &case.files[2]);
        let found = match timetable.stop_name(&bytes, stop, language, kind) {
            Ok(name) => [0, (name.as_ptr() as usize - bytes.as_ptr() as usize) as u32, name.len() as u32],
            Err(number) => [number, 0, 0],
        };
        assert_eq!(found, Reader.stop_name(&table, &bytes, stop, [language, kind]), "{}: name of {}", told, stop);

        let asked = board_question(rng, &table);
        assert_eq!(board(&timetable, &asked), listed(&table, &asked), "{}: {:?}", told, asked);

        let (bent, parts) = proposed(rng, &table);
        if bent == table {
            let found = connected(&timetable, &parts);
            assert_eq!(found, Reader.connection(&table, &[], &parts), "{}: {:?}", told, parts);
        }
    }
    let mut text = Vec::new();
    timetable.write_fplan(&mut text).expect("memory to write");
    assert!(text_of(&table).as_ref() == Ok(&text), "{}: FPLAN", told);
}

pub fn row_words(row: &Row) -> [u32; ROW_WORDS] {
    let [high, low] = row.administration;
    let [first, second] = row.interchange;
    [row.stop, row.arrival, row.departure, row.flags, row.number, high, low, row.category, first, second]
}

/// An answer's words; the rows of a walk behind them.
fn answered(timetable: &Timetable, asked: Question) -> Result<Vec<u32>, u32> {
    match asked {
        Question::Day { date, bitfield } => timetable.day(date, bitfield).map(|runs| vec![runs.into()]),
        Question::Interchange { stop, classes: [a, b] } => timetable.interchange(stop, a, b).map(|time| vec![time]),
        Question::Between { stop, categories: [a, b] } => {
            timetable.interchange_between(stop, a, b).map(|time| vec![time])
        }
        Question::Walk { service, repeat, date, .. } => {
            let mut rows = Vec::new();
            timetable.walk(service, repeat, date, &mut rows).map(|()| rows.iter().flat_map(row_words).collect())
        }
    }
}

fn plain(table: &[u32], asked: Question) -> Result<Vec<u32>, u32> {
    let answer = |numbers: [u32; 2]| if numbers[0] == 0 { Ok(vec![numbers[1]]) } else { Err(numbers[0]) };
    match asked {
        Question::Day { date, bitfield } => answer(Reader.day(table, date, bitfield)),
        Question::Interchange { stop, classes } => answer(Reader.interchange(table, stop, classes)),
        Question::Between { stop, categories } => answer(Reader.interchange_between(table, stop, categories)),
        Question::Walk { service, repeat, date, .. } => {
            let mut rows = vec![0; MOST_ROW_WORDS];
            match Reader.walk(table, service, repeat, date, &mut rows) {
                [0, listed, _] => {
                    rows.truncate(ROW_WORDS * listed as usize);
                    Ok(rows)
                }
                [number, ..] => Err(number),
            }
        }
    }
}

fn board(timetable: &Timetable, asked: &BoardQuestion) -> Result<Vec<[u32; 4]>, u32> {
    let mut rows = Vec::new();
    timetable.board(asked.stop, asked.date, asked.first, asked.last, &mut rows)?;
    Ok(rows.iter().map(|row| [row.time, row.service, row.repeat, row.place]).collect())
}

fn listed(table: &[u32], asked: &BoardQuestion) -> Result<Vec<[u32; 4]>, u32> {
    Ok(departures(table, None, asked)?.into_iter().map(|row| row.words()).collect())
}

pub fn parts_of(words: &[u32]) -> Vec<Part> {
    let part = |part: &[u32]| Part {
        service: part[0],
        repeat: part[1],
        date: [part[2], part[3], part[4]],
        boards: part[5],
        alights: part[6],
    };
    words.chunks_exact(PART_WORDS).map(part).collect()
}

/// Number and part; words that are no whole parts are 46.
fn connected(timetable: &Timetable, words: &[u32]) -> [u32; 2] {
    if words.len() % PART_WORDS != 0 {
        return [46, 0];
    }
    match timetable.check_connection(&parts_of(words)) {
        Ok(()) => [0, 0],
        Err(Bad { number, part }) => [number, part],
    }
}
