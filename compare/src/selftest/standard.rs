//! The standard's printed examples, by the reader.

use crate::boundary::Reader;
use crate::generate::plan::bitfield_of;
use crate::reader::bits::{frame_ok, runs_on};
use crate::reader::calendar::{day_number, period};
use crate::reader::fields::hex_words;
use crate::standard::examples;

#[test]
fn printed_examples() {
    for checked in examples(&Reader) {
        assert_eq!(checked.expected, checked.found, "{}", checked.text);
    }
}

/// 5.4.2: "runs every Saturday" of a period whose day 6 is the first Saturday, as printed: C0810204081...
#[test]
fn saturdays() {
    let n = period(day_number(27, 9, 1996).unwrap(), day_number(22, 5, 1997).unwrap()).unwrap();
    assert_eq!(n, 238);
    let printed = hex_words(format!("{:0<96}", "C0810204081020408102040810204081020").as_bytes(), 1).unwrap();
    for d in 0..138 {
        assert_eq!(runs_on(&printed, d), d % 7 == 6, "day {}", d);
    }
    let full = bitfield_of(n, |d| d % 7 == 6);
    assert!(frame_ok(&full, n) && !frame_ok(&printed, n));
    assert_eq!(full[..4], printed[..4]);
}
