//! Document 02, No. 12: connections worked by hand, on the three services of `deliveries`.

use super::deliveries::{three_services, FRIDAY, MONDAY, SATURDAY};
use crate::layout::{BIT_FIELD_WORDS, CLASS_WORDS, FIRST_SERVICE_AT, HEADER_WORDS, STOP_WORDS};
use crate::reader::connection::Connected::{self, Holds};
use crate::reader::{connection, is_table};

/// Service, repeat, date, boarding call, alighting call.
type Part = (u32, u32, [u32; 3], u32, u32);

fn words(parts: &[Part]) -> Vec<u32> {
    let of = |(service, repeat, [d, m, y], boards, alights): &Part| [*service, *repeat, *d, *m, *y, *boards, *alights];
    parts.iter().flat_map(of).collect()
}

fn bad(number: u32, part: u32) -> Connected {
    Connected::Refused { number, part }
}

const THURSDAY: [u32; 3] = [4, 12, 2025];

/// From Beta to Gamma by the repeated service, then on by route R from Gamma at 08:35; BAT and IC change in three minutes.
#[test]
fn waits() {
    let table = three_services();
    let then_r = |repeat, date, on| connection(&table, &words(&[(2, repeat, date, 0, 1), (0, 0, on, 2, 3)]));
    // arrivals at 08:20, 08:32, 08:44
    assert_eq!(then_r(0, FRIDAY, FRIDAY), Holds);
    assert_eq!(then_r(1, FRIDAY, FRIDAY), Holds);
    assert_eq!(then_r(2, FRIDAY, FRIDAY), bad(50, 2));
    // over date and minutes together
    assert_eq!(then_r(2, THURSDAY, FRIDAY), Holds);
    assert_eq!(then_r(0, FRIDAY, THURSDAY), bad(50, 2));
    // from 24:20 of Thursday to 08:35 of Friday, and of Thursday
    let overnight = |on| connection(&table, &words(&[(1, 0, THURSDAY, 0, 2), (0, 0, on, 2, 3)]));
    assert_eq!([overnight(FRIDAY), overnight(THURSDAY)], [Holds, bad(50, 2)]);
    // 08:55 at Beta by route R, then at 23:50 of the same day, and at 24:20 of the day before
    let evening = |repeat, on| connection(&table, &words(&[(0, 0, FRIDAY, 2, 3), (1, repeat, on, 0, 2)]));
    assert_eq!([evening(0, FRIDAY), evening(4, THURSDAY)], [Holds, bad(50, 2)]);
    // with four minutes between them, the wait of three is too short
    let mut slower = table.clone();
    slower[HEADER_WORDS + BIT_FIELD_WORDS + 3 * STOP_WORDS + 2] = 4;
    assert!(is_table(&slower));
    assert_eq!(connection(&slower, &words(&[(2, 1, FRIDAY, 0, 1), (0, 0, FRIDAY, 2, 3)])), bad(50, 2));
    // both of class 1: the first time
    let mut express = table;
    let first_service = express[FIRST_SERVICE_AT] as usize;
    express[first_service - 2 * CLASS_WORDS + 1] = 1;
    assert_eq!(connection(&express, &words(&[(2, 1, FRIDAY, 0, 1), (0, 0, FRIDAY, 2, 3)])), Holds);
    express[HEADER_WORDS + BIT_FIELD_WORDS + 3 * STOP_WORDS + 1] = 4;
    assert_eq!(connection(&express, &words(&[(2, 1, FRIDAY, 0, 1), (0, 0, FRIDAY, 2, 3)])), bad(50, 2));
}

#[test]
fn refusals_in_their_order() {
    let table = three_services();
    let one = |part: Part| connection(&table, &words(&[part]));
    assert_eq!(one((0, 0, FRIDAY, 0, 3)), Holds);
    assert_eq!(connection(&table[..table.len() - 1], &[]), bad(21, 0));
    for length in 0..=78 {
        let parts = vec![7; length];
        let whole = length % 7 == 0 && (7..=70).contains(&length);
        assert_eq!(connection(&table, &parts), if whole { bad(22, 1) } else { bad(46, 0) }, "{} words", length);
    }
    assert_eq!(one((9, 9, [30, 2, 2025], 9, 9)), bad(22, 1));
    assert_eq!(one((9, 9, [8, 12, 2025], 9, 9)), bad(23, 1));
    assert_eq!(one((3, 9, FRIDAY, 9, 9)), bad(24, 1));
    assert_eq!(one((2, 3, FRIDAY, 9, 9)), bad(25, 1));
    assert_eq!(one((1, 5, FRIDAY, 0, 2)), bad(25, 1));
    // not running, and a call that is none
    assert_eq!(one((0, 0, SATURDAY, 0, 3)), bad(47, 1));
    assert_eq!(one((0, 0, FRIDAY, 0, 4)), bad(47, 1));
    assert_eq!(one((0, 0, FRIDAY, u32::MAX, 0)), bad(47, 1));
    // order and permission
    assert_eq!(one((0, 0, FRIDAY, 2, 2)), bad(48, 1));
    assert_eq!(one((0, 0, FRIDAY, 2, 1)), bad(48, 1));
    assert_eq!(one((1, 0, FRIDAY, 1, 2)), bad(48, 1));
    // the first bad part: 50 of the second before 22 of the third, 49 before 50
    let (late, on, none) = ((2, 2, MONDAY, 0, 1), (0, 0, MONDAY, 2, 3), (0, 0, [0, 0, 0], 0, 0));
    assert_eq!(connection(&table, &words(&[late, on, none])), bad(50, 2));
    assert_eq!(connection(&table, &words(&[late, (0, 0, MONDAY, 0, 3), none])), bad(49, 2));
    // the same run again is a change like any other, and has no wait
    assert_eq!(connection(&table, &words(&[(0, 0, MONDAY, 0, 2), (0, 0, MONDAY, 2, 3)])), Holds);
    assert_eq!(connection(&table, &words(&[(0, 0, MONDAY, 0, 1), (0, 0, MONDAY, 1, 3)])), bad(50, 2));
}

/// Words from elsewhere whose *G is not listed: only changes are looked at, and the leg arriving is the one into the alighting call.
#[test]
fn categories_that_are_not_listed() {
    let mut table = three_services();
    let ic = u32::from_be_bytes(*b"\0IC ");
    let at = table.iter().rposition(|word| *word == ic).unwrap();
    table[at] = 5;
    assert!(is_table(&table));
    assert_eq!(connection(&table, &words(&[(2, 0, FRIDAY, 0, 1)])), Holds);
    assert_eq!(connection(&table, &words(&[(2, 0, FRIDAY, 0, 1), (0, 0, FRIDAY, 2, 3)])), bad(38, 2));
    assert_eq!(connection(&table, &words(&[(2, 2, FRIDAY, 0, 1), (0, 0, FRIDAY, 0, 3)])), bad(49, 2));
    assert_eq!(connection(&table, &words(&[(2, 2, FRIDAY, 0, 1), (0, 0, FRIDAY, 2, 3)])), bad(38, 2));
}
