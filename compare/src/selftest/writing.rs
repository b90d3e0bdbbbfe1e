//! Document 02, No. 11: FPLAN written back, worked by hand; each cause of 44; and the round trip.

use super::deliveries::{route_r, table_of, three_services, week};
use crate::boundary::{Boundary, Reader};
use crate::differ::rng_of;
use crate::generate::raw_table::{parts, RawTable};
use crate::generate::{valid, writes, Size};
use crate::layout::{OPENING_LINE_AT, SERVICES_AT};
use crate::reader::write::text_of;
use crate::reader::{is_table, write, Written};

#[rustfmt::skip]
const ROUTE_R: [&str; 7] = [
    "*Z 00042 FERRY_       000 000                             %",
    "*G BAT      #0      #3                                    %",
    "*A VE      #0      #3 000001                              %",
    "1000011                              00800 00042 FERRY_   %",
    "1000022                       00810  00812 00042 FERRY_   %",
    "1000033                       00830  00835 00042 FERRY_   %",
    "1000022                       00855        00042 FERRY_   %",
];

#[rustfmt::skip]
const LATE: [&str; 6] = [
    "*T 00007 FERRY_ 0030 0450                                 %",
    "*G BAT      #0      #2                                    %",
    "*A VE      #0      #2 000000                              %",
    "1000022                              02350 00007 FERRY_   %",
    "1000011                       02405 -02406 00007 FERRY_   %",
    "1000033                       02420        00007 FERRY_   %",
];

fn text(lines: &[&str]) -> Vec<u8> {
    assert!(lines.iter().all(|line| line.len() == 59));
    lines.iter().map(|line| format!("{}\n", line)).collect::<String>().into_bytes()
}

#[test]
fn text_by_hand() {
    let table = table_of(&week(&route_r()));
    let expected = text(&ROUTE_R);
    assert_eq!(expected.len(), 420);
    assert_eq!(String::from_utf8(text_of(&table).unwrap()), String::from_utf8(expected.clone()));
    let mut lent = [9; 425];
    assert_eq!(write(&table, &mut lent[..419]), Written::Refused { number: 45, needed: 420 });
    assert_eq!(write(&table[1..], &mut lent), Written::Refused { number: 21, needed: 0 });
    assert_eq!(lent, [9; 425]);
    assert_eq!(write(&table, &mut lent), Written::Bytes(420));
    assert_eq!((&lent[..420], &lent[420..]), (&expected[..], &[9; 5][..]));
    let three = text_of(&three_services()).unwrap();
    assert_eq!(three[420..780], text(&LATE));
    assert_eq!(&three[780..840], b"*Z 00009 FERRY_       002 012                             %\n");
    // without services, no bytes
    let none = table_of(&week(&[]));
    assert_eq!(write(&none, &mut []), Written::Bytes(0));
}

/// Each cause of 44 on a table that is written otherwise.
#[test]
fn causes_of_44() {
    let table = three_services();
    assert!(text_of(&table).is_ok());
    for (name, cause) in writes::CAUSES {
        for turn in 0..200 {
            let rng = &mut rng_of(44, turn);
            let mut raw = parts(&table);
            if cause(rng, &mut raw).is_some() {
                let words = raw.words();
                assert!(is_table(&words), "{}", name);
                assert_eq!(text_of(&words), Err(44), "{} in turn {}", name, turn);
            }
        }
    }
    for (name, harmless) in writes::HARMLESS {
        let mut raw = parts(&table);
        assert!(harmless(&mut rng_of(44, 0), &mut raw).is_some(), "{}", name);
        assert!(text_of(&raw.words()).is_ok(), "{}", name);
    }
}

fn without_lines(table: &[u32]) -> Vec<u32> {
    let mut raw: RawTable = parts(table);
    raw.services.iter_mut().for_each(|service| service.head[OPENING_LINE_AT] = 0);
    raw.words()
}

/// "loading the text with the same other files gives the same table except the opening line numbers, and writing that again gives the same bytes"
#[test]
fn round_trips() {
    let mut services = 0;
    for index in 0..2_000 {
        let rng = &mut rng_of(11, index);
        let mut case = valid(rng, if index % 50 == 0 { Size::Large } else { Size::Medium });
        let (mut table, mut helper) = (vec![0; case.room], case.helper.clone());
        let used = match Reader.load(case.slices(), &mut table, &mut helper) {
            [0, _, _, words, _] => words as usize,
            refused => panic!("{:?}", refused),
        };
        table.truncate(used);
        services += table[SERVICES_AT];
        let text = text_of(&table).unwrap();
        assert!(text.len() <= case.files[4].len() + 1);
        case.files[4] = text.clone();
        let mut again = vec![0; used];
        assert_eq!(Reader.load(case.slices(), &mut again, &mut helper), [0, 0, 0, used as u32, 0], "turn {}", index);
        assert_eq!(without_lines(&again), without_lines(&table), "turn {}", index);
        assert_eq!(text_of(&again), Ok(text), "turn {}", index);
    }
    assert!(services > 3_000, "{} services", services);
}
