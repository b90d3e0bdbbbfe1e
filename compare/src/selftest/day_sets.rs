//! Arithmetic on operating days by the reader: document 01's bit fields of seven days, and each clause of 42.

use crate::boundary::{Boundary, Reader};
use crate::reader::Combination::{self, Difference, Intersection, Union};

/// Three hex digits, and zeros.
fn field(digits: u32) -> Vec<u32> {
    let mut words = vec![0; 12];
    words[0] = digits << 20;
    words
}

/// Number and first word of what two fields of n days make.
fn combined(of: Combination, n: u32, first: &[u32], second: &[u32]) -> [u32; 2] {
    let mut result = [7; 12];
    let [number] = Reader.combine(of, n, first, second, &mut result);
    assert_eq!(result[1..], if number == 0 { [0; 11] } else { [7; 11] });
    [number, result[0] >> 20]
}

/// FE6 runs on days 0 to 4, C1E on days 5 and 6; FFE is each day, C06 none.
#[test]
fn seven_days() {
    let (week, rest) = (field(0xFE6), field(0xC1E));
    assert_eq!(combined(Union, 7, &week, &rest), [0, 0xFFE]);
    assert_eq!(combined(Intersection, 7, &week, &rest), [0, 0xC06]);
    assert_eq!(combined(Difference, 7, &week, &rest), [0, 0xFE6]);
    assert_eq!(combined(Difference, 7, &week, &week), [0, 0xC06]);
    let mut result = [7; 12];
    assert_eq!(Reader.complement(7, &week, &mut result), [0]);
    assert_eq!(result[..], rest[..]);
    assert_eq!((Reader.day_count(7, &week), Reader.day_count(7, &rest)), ([0, 5], [0, 2]));
    assert_eq!(Reader.day_count(1, &field(0xD80)), [0, 0]);
    assert_eq!(Reader.day_count(380, &[u32::MAX; 12]), [0, 380]);
}

/// "n is not 1 to 380 or a lent field or the result is not twelve words, or a field has a wrong frame"
#[test]
fn refused() {
    let week = field(0xFE6);
    let refused = [42, 7 >> 20];
    for n in [0, 6, 8, 381, u32::MAX] {
        assert_eq!(combined(Union, n, &week, &week), refused);
    }
    let thirteen = [week.clone(), vec![0]].concat();
    for wrong in [&field(0xFE4)[..], &field(0xFF3), &week[..11], &thirteen, &[]] {
        assert_eq!(combined(Union, 7, wrong, &week), refused);
        assert_eq!(combined(Union, 7, &week, wrong), refused);
        assert_eq!(Reader.day_count(7, wrong), [42, 0]);
    }
    assert_eq!(Reader.day_count(381, &[u32::MAX; 12]), [42, 0]);
    for room in [0, 11, 13] {
        let mut result = vec![7; room];
        assert_eq!(Reader.combine(Union, 7, &week, &week, &mut result), [42]);
        assert_eq!(Reader.complement(7, &week, &mut result), [42]);
        assert_eq!(result, vec![7; room]);
    }
}
