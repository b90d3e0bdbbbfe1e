//! Document 02, No. 9: indexes and boards, worked by hand; and boards by walking every run.

use super::deliveries::{route_r, table_of, three_services, week, ALPHA, BETA, FRIDAY, GAMMA, SATURDAY};
use crate::boundary::{Boundary, Reader};
use crate::differ::rng_of;
use crate::generate::boards::board_question;
use crate::generate::questions::{head_of, last_run};
use crate::generate::raw_table::{parts, RawTable};
use crate::generate::{damaged_table, valid, Size};
use crate::layout::{
    ARRIVAL, CALL_ARRIVAL_AT, CALL_DEPARTURE_AT, CALL_FLAGS_AT, CALL_PLACE_AT, DEPARTURE, MOST_ROW_WORDS, NO_ALIGHTING,
    NO_BOARDING, ROW_DEPARTURE_AT, ROW_WORDS, SERVICES_AT, STOP_NUMBER_AT, USED_AT,
};
use crate::reader::board::{departs, departures, Departure};
use crate::reader::quick_board::quick_departures;
use crate::reader::runs::Runs;
use crate::reader::{board, check_index, index, index_words, is_table, BoardQuestion, Boarded, Indexed};

fn asked(stop: u32, date: [u32; 3], first: u32, last: u32) -> BoardQuestion {
    BoardQuestion { stop, date, first, last }
}

fn rows(table: &[u32], asked: BoardQuestion) -> Vec<[u32; 4]> {
    let (index, mut list) = (index_words(table).unwrap(), [9; 80]);
    match board(table, &index, &asked, &mut list) {
        Boarded::Rows(rows) => {
            assert!(list[4 * rows..].iter().all(|word| *word == 9));
            list.chunks(4).take(rows).map(|row| [row[0], row[1], row[2], row[3]]).collect()
        }
        refused => panic!("{:?}", refused),
    }
}

/// Of the trial week with a category more: one bit field, stops in buckets 2, 1, 1 of three, one interchange record; its service at word 38.
#[test]
fn index_of_the_trial_week() {
    let table = table_of(&week(&route_r()));
    assert_eq!(table.len(), 84);
    let made = index_words(&table).unwrap();
    assert_eq!(made[..2], [1, 0]);
    // Records count from the end: Alpha is 3, alone in bucket 2; Beta is 2 and Gamma 1, both in bucket 1.
    assert_eq!(made[2..8], [0, 0, 2, 1, 3, 0]);
    assert_eq!(made[8..10], [1, 0]);
    // BAT is 2, IC is 1
    assert_eq!(made[10..14].iter().copied().max(), Some(2));
    assert_eq!(made[14..15], [38]);
    // the last calls at Alpha, Beta, Gamma; then each call
    assert_eq!(made[15..18], [1, 4, 3]);
    assert_eq!(made[18..34], [0, 0, 38, 0, 0, 0, 38, 1, 0, 0, 38, 2, 2, 0, 38, 3]);
    // its calls are steady
    assert_eq!(made[34..], [1]);
    let mut lent = [9; 37];
    assert_eq!(index(&table, &mut lent[..34]), Indexed::Refused { number: 29, needed: 35 });
    assert_eq!(index(&table[..83], &mut lent), Indexed::Refused { number: 21, needed: 0 });
    assert_eq!(lent, [9; 37]);
    assert_eq!(index(&table, &mut lent), Indexed::Words(35));
    assert_eq!((&lent[..35], &lent[35..]), (&made[..], &[9, 9][..]));
    assert_eq!(check_index(&table, &made), 0);
    assert_eq!(check_index(&table, &lent[..36]), 43);
    assert_eq!(check_index(&table, &made[..34]), 43);
    assert_eq!(check_index(&table[..83], &made), 21);
    for at in 0..made.len() {
        let mut other = made.clone();
        other[at] ^= 1;
        assert_eq!(check_index(&table, &other), 43, "word {}", at);
    }
}

/// The mark of a table after a change to its calls.
fn mark_after(table: &[u32], change: impl Fn(&mut RawTable)) -> u32 {
    let mut raw = parts(table);
    change(&mut raw);
    let words = raw.words();
    let made = index_words(&words).unwrap();
    assert_eq!(check_index(&words, &made), 0);
    *made.last().unwrap()
}

/// Document 01's route R has calls at 08:00, 08:10 to 08:12, 08:30 to 08:35, and 08:55.
#[test]
fn marks_of_steady_tables() {
    let table = three_services();
    let set = |call: usize, at: usize, word: u32| mark_after(&table, |raw| raw.services[0].calls[call][at] = word);
    assert_eq!(mark_after(&table, |_| ()), 1);
    assert_eq!(mark_after(&table, |raw| raw.services.clear()), 1);
    // equal times
    assert_eq!(set(1, CALL_ARRIVAL_AT, 492), 1);
    assert_eq!(set(1, CALL_DEPARTURE_AT, 510), 1);
    assert_eq!(set(0, CALL_DEPARTURE_AT, 490), 1);
    assert_eq!(set(3, CALL_ARRIVAL_AT, 515), 1);
    // signs are no times
    assert_eq!(set(1, CALL_FLAGS_AT, ARRIVAL | DEPARTURE | NO_ALIGHTING | NO_BOARDING), 1);
    // the first call's arrival and the last call's departure, whatever they are
    let outer = mark_after(&table, |raw| {
        let calls = &mut raw.services[0].calls;
        calls[0][CALL_ARRIVAL_AT..=CALL_FLAGS_AT].copy_from_slice(&[59_999, 480, ARRIVAL | DEPARTURE]);
        calls[3][CALL_ARRIVAL_AT..=CALL_FLAGS_AT].copy_from_slice(&[535, 0, ARRIVAL | DEPARTURE]);
    });
    assert_eq!(outer, 1);
}

#[test]
fn marks_of_tables_that_are_not_steady() {
    let table = three_services();
    let set = |call: usize, at: usize, word: u32| mark_after(&table, |raw| raw.services[0].calls[call][at] = word);
    // a minute below the time before
    assert_eq!(set(1, CALL_ARRIVAL_AT, 479), 0);
    assert_eq!(set(1, CALL_DEPARTURE_AT, 489), 0);
    assert_eq!(set(0, CALL_DEPARTURE_AT, 491), 0);
    assert_eq!(set(3, CALL_ARRIVAL_AT, 514), 0);
    // a time that is not stated
    assert_eq!(set(0, CALL_FLAGS_AT, ARRIVAL), 0);
    assert_eq!(set(1, CALL_FLAGS_AT, ARRIVAL), 0);
    assert_eq!(set(2, CALL_FLAGS_AT, DEPARTURE), 0);
    assert_eq!(set(3, CALL_FLAGS_AT, DEPARTURE), 0);
    // of any service
    assert_eq!(mark_after(&table, |raw| raw.services[2].calls[1][CALL_ARRIVAL_AT] = 0), 0);
}

#[test]
fn boards_by_hand() {
    let table = three_services();
    let late = [[1_430, 1, 0, 0], [1_438, 1, 1, 0], [1_445, 1, 2, 0], [1_453, 1, 3, 0], [1_460, 1, 4, 0]];
    let repeated = [[492, 2, 0, 0], [504, 2, 1, 0], [516, 2, 2, 0]];
    // route R's last call at Beta, 08:55, departs nowhere
    let friday = [&[[492, 0, 0, 1]], &repeated[..], &late[..]].concat();
    assert_eq!(rows(&table, asked(BETA, FRIDAY, 0, u32::MAX)), friday);
    assert_eq!(rows(&table, asked(BETA, SATURDAY, 0, u32::MAX)), [&repeated[..], &late[..]].concat());
    // no boarding at 24:06
    assert_eq!(rows(&table, asked(ALPHA, FRIDAY, 0, u32::MAX)), [[480, 0, 0, 0]]);
    assert_eq!(rows(&table, asked(GAMMA, FRIDAY, 0, u32::MAX)), [[515, 0, 0, 2]]);
    // both ends count
    assert_eq!(rows(&table, asked(BETA, FRIDAY, 492, 504)), friday[..3]);
    assert_eq!(rows(&table, asked(BETA, FRIDAY, 493, 504)), friday[2..3]);
    assert_eq!(rows(&table, asked(BETA, FRIDAY, 492, 503)), friday[..2]);
    assert_eq!(rows(&table, asked(BETA, FRIDAY, 1_460, 1_460)), friday[8..]);
    assert_eq!(rows(&table, asked(BETA, FRIDAY, 1_461, u32::MAX)), [[0; 4]; 0]);
    assert_eq!(rows(&table, asked(BETA, FRIDAY, 504, 492)), [[0; 4]; 0]);
}

#[test]
fn refusals_of_a_board() {
    let table = three_services();
    let own = index_words(&table).unwrap();
    let mut list = [9; 40];
    let all = |stop, date| asked(stop, date, 0, u32::MAX);
    let mut answer = |table: &[u32], index: &[u32], asked: BoardQuestion, room: usize| {
        let answer = board(table, index, &asked, &mut list[..room]);
        assert!(answer == Boarded::Rows(0) || list == [9; 40]);
        answer
    };
    let refused = |number, needed| Boarded::Refused { number, needed };
    let cut = &table[..table.len() - 1];
    assert_eq!(answer(cut, &[], all(1, [31, 11, 2025]), 0), refused(21, 0));
    assert_eq!(answer(&table, &[], all(1, [31, 11, 2025]), 0), refused(22, 0));
    assert_eq!(answer(&table, &[], all(1, [8, 12, 2025]), 0), refused(23, 0));
    assert_eq!(answer(&table, &[], all(1, FRIDAY), 0), refused(27, 0));
    assert_eq!(answer(&table, &own[1..], all(BETA, FRIDAY), 0), refused(43, 0));
    assert_eq!(answer(&table, &own, all(BETA, FRIDAY), 35), refused(29, 36));
    // a first time after the last one: after all refusals, and without room
    assert_eq!(answer(&table, &own[1..], asked(BETA, FRIDAY, 2, 1), 0), refused(43, 0));
    assert_eq!(answer(&table, &own, asked(BETA, FRIDAY, 2, 1), 0), Boarded::Rows(0));
}

/// Words from elsewhere: Gamma's number is Beta's, and its calls are on Beta's board, each once.
#[test]
fn a_stop_listed_twice() {
    let mut table = three_services();
    let gamma = table.iter().position(|word| *word == GAMMA).unwrap();
    table[gamma] = BETA;
    assert!(is_table(&table));
    let places: Vec<[u32; 2]> = rows(&table, asked(BETA, FRIDAY, 0, 515)).iter().map(|row| [row[1], row[3]]).collect();
    assert_eq!(places, [[0, 1], [2, 0], [2, 0], [0, 2]]);
}

/// A *T of 9,999 minutes and density 1 has 599,941 runs, and a file of 16,777,216 bytes holds thousands of such services: a board of 1,790 passes 2^32 words.
#[test]
fn words_needed_pass_2_to_32() {
    let most = Runs::Frequent { running_time: 9_999, density: 1 };
    assert_eq!([most.late(599_940), most.late(599_941)], [Some(9_999), None]);
    let (runs, lines_of_a_service) = (599_941_u64, 5);
    let services = 16_777_216 / 60 / lines_of_a_service;
    assert!(services > 1_790 && 1_790 * runs * 4 > 1 << 32);
}

/// Service and place of each row at Beta on Friday by words that were the index of the three services before a change, under a mark.
fn quickly(mark: u32, change: impl Fn(&mut RawTable)) -> Vec<[u32; 2]> {
    let table = three_services();
    let mut index = index_words(&table).unwrap();
    *index.last_mut().unwrap() = mark;
    let mut raw = parts(&table);
    change(&mut raw);
    let rows = quick_departures(&raw.words(), &index, &asked(BETA, FRIDAY, 492, 492)).unwrap().unwrap();
    rows.iter().map(|row| [row.service, row.place]).collect()
}

/// A quick board under a mark of 1 does not look at the other calls of a run, nor at the times before; under any other mark it goes by the walk.
#[test]
fn quick_boards_by_their_marks() {
    let both = [[0, 1], [2, 0]];
    for mark in [0, 1, 2, u32::MAX] {
        assert_eq!(quickly(mark, |_| ()), both);
    }
    let call = |at: usize, word: usize, value: u32| {
        let by = |mark: u32| quickly(mark, |raw| raw.services[0].calls[at][word] = value);
        assert_eq!(by(2), by(0));
        [by(1), by(0)].map(|rows| rows == both)
    };
    // a time that falls, before and behind the call; one that is not stated, there too
    assert_eq!(call(0, CALL_DEPARTURE_AT, 491), [true, false]);
    assert_eq!(call(3, CALL_ARRIVAL_AT, 0), [true, false]);
    assert_eq!(call(2, CALL_FLAGS_AT, 0), [true, false]);
    assert_eq!(call(1, CALL_FLAGS_AT, ARRIVAL), [true, false]);
    // calls that are not sound, elsewhere and there
    assert_eq!([call(2, CALL_FLAGS_AT, 16), call(1, CALL_FLAGS_AT, 19)], [[true, false], [false; 2]]);
    assert_eq!([call(2, CALL_PLACE_AT, 3), call(1, CALL_PLACE_AT, 3)], [[true, false], [false; 2]]);
    assert_eq!([call(2, CALL_ARRIVAL_AT, 60_000), call(1, CALL_ARRIVAL_AT, 60_000)], [[true, false], [false; 2]]);
    // no boarding, another stop
    assert_eq!(call(1, CALL_FLAGS_AT, ARRIVAL | DEPARTURE | NO_BOARDING), [false; 2]);
    assert_eq!(call(1, CALL_PLACE_AT, 2), [false; 2]);
}

/// Ranges of a run whose last arrival falls, under a mark of 1: where they do not follow each other the walk is asked, and is refused.
#[test]
fn quick_boards_by_their_ranges() {
    let is_listed = |days: [[u32; 3]; 3], categories: [[u32; 3]; 2]| {
        let mut raw = parts(&three_services());
        (raw.services[0].days, raw.services[0].categories) = (days.to_vec(), categories.to_vec());
        let mut index = index_words(&raw.words()).unwrap();
        raw.services[0].calls[3][CALL_ARRIVAL_AT] = 0;
        let mut by = |mark: u32| {
            *index.last_mut().unwrap() = mark;
            quick_departures(&raw.words(), &index, &asked(BETA, FRIDAY, 492, 492)).unwrap().unwrap().len() == 2
        };
        assert!(!by(0));
        by(1)
    };
    let (days, categories) = ([[1, 0, 1], [0, 1, 2], [1, 2, 3]], [[5, 0, 2], [5, 2, 3]]);
    assert!(is_listed(days, categories));
    // exactly one over each leg, but not in order
    assert!(!is_listed([days[1], days[0], days[2]], categories));
    assert!(!is_listed(days, [categories[1], categories[0]]));
    // a leg with none or two, or an end behind
    assert!(!is_listed([days[0], days[1], days[1]], categories));
    assert!(!is_listed(days, [[5, 0, 1], [5, 2, 3]]));
    assert!(!is_listed(days, [[5, 0, 2], [5, 1, 3]]));
    // a bit field that there is not, whether before or behind the call
    assert!(!is_listed([[9, 0, 1], days[1], days[2]], categories));
    assert!(!is_listed([days[0], days[1], [9, 2, 3]], categories));
}

/// On Saturday the outer legs are operated and the one between is not: no place is left, under any mark.
#[test]
fn quick_boards_of_two_stretches() {
    let mut raw = parts(&three_services());
    raw.services[0].days = vec![[0, 0, 1], [1, 1, 2], [0, 2, 3]];
    let (table, mut index) = (raw.words(), index_words(&raw.words()).unwrap());
    for (mark, date, count) in [(0, SATURDAY, 0), (1, SATURDAY, 0), (0, FRIDAY, 1), (1, FRIDAY, 1)] {
        *index.last_mut().unwrap() = mark;
        let rows = quick_departures(&table, &index, &asked(ALPHA, date, 0, u32::MAX)).unwrap().unwrap();
        assert_eq!(rows.len(), count);
    }
}

/// "The answer equals the one from walking every run", by the walk question as it is.
fn departures_by_walks(table: &[u32], asked: &BoardQuestion) -> Vec<Departure> {
    let mut found = Vec::new();
    for service in 0..table[SERVICES_AT] {
        let head = head_of(table, service).unwrap();
        for repeat in 0..=last_run(head) as u32 {
            let mut rows = vec![0; MOST_ROW_WORDS];
            let listed = match Reader.walk(table, service, repeat, asked.date, &mut rows) {
                [0, listed, _] => listed as usize,
                _ => continue,
            };
            for row in rows.chunks(ROW_WORDS).take(listed) {
                let time = row[ROW_DEPARTURE_AT];
                if departs(row, asked.stop) && asked.first <= time && time <= asked.last {
                    // a row has no place in the route
                    found.push(Departure { time, service, repeat, place: 0 });
                }
            }
        }
    }
    found.sort_unstable_by_key(|row| (row.service, row.repeat, row.time));
    found
}

#[test]
fn boards_are_those_of_all_walks() {
    let (mut compared, mut with_rows) = (0, 0);
    for index in 0..3_000 {
        let rng = &mut rng_of(9, index);
        let case = valid(rng, Size::Small);
        let (mut table, mut helper) = (vec![0; case.room], case.helper.clone());
        Reader.load(case.slices(), &mut table, &mut helper);
        if index % 2 == 1 {
            table = damaged_table(rng, &table);
        }
        let runs = |table: &[u32]| -> u64 {
            (0..table[SERVICES_AT]).map(|service| head_of(table, service).map_or(0, last_run)).sum()
        };
        if !is_table(&table) || runs(&table) > 300 {
            continue;
        }
        let question = board_question(rng, &table);
        if let Ok(found) = departures(&table, None, &question) {
            let own = index_words(&table).unwrap();
            assert_eq!(quick_departures(&table, &own, &question), Some(Ok(found.clone())), "turn {}", index);
            let mut without_places: Vec<Departure> = found.iter().map(|row| Departure { place: 0, ..*row }).collect();
            without_places.sort_unstable_by_key(|row| (row.service, row.repeat, row.time));
            assert_eq!(without_places, departures_by_walks(&table, &question), "turn {}", index);
            let raw = parts(&table[..table[USED_AT] as usize]);
            for row in &found {
                let call = raw.services[row.service as usize].calls[row.place as usize];
                assert_eq!(raw.stops[call[CALL_PLACE_AT] as usize][STOP_NUMBER_AT], question.stop, "turn {}", index);
                assert!(call[CALL_DEPARTURE_AT] <= row.time && call[CALL_FLAGS_AT] & NO_BOARDING == 0);
            }
            compared += 1;
            with_rows += u32::from(!found.is_empty());
        }
    }
    assert!(compared > 500 && with_rows > 150, "{} boards, {} with rows", compared, with_rows);
}
