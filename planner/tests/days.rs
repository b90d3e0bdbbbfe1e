//! Operating days as sets, on the trial week's table.

mod trial_week;

use estelunya_planner::by_number::{load, Table};
use estelunya_planner::Refusal;
use trial_week::TRIAL_WEEK;

fn trial_week() -> Vec<u32> {
    let mut words = vec![7; 100];
    load(&TRIAL_WEEK, &mut words).unwrap();
    words
}

/// Three hex digits, and zeros.
fn field(digits: u32) -> [u32; 12] {
    let mut words = [0; 12];
    words[0] = digits << 20;
    words
}

/// "With n = 7, FE6 and zeros runs on days 0 to 4": C1E runs on the other two, FFE on each, C06 on none.
#[test]
fn seven_days() {
    let words = trial_week();
    let table = Table::new(&words);
    let weekdays = table.bit_field(1).unwrap();
    let weekend = table.bit_field_from(&field(0xC1E)).unwrap();
    assert_eq!((table.period_days(), weekdays.words(), !weekdays), (7, field(0xFE6), weekend));
    assert_eq!((weekdays | weekend).words(), field(0xFFE));
    assert_eq!(weekdays | weekend, table.bit_field(0).unwrap());
    assert_eq!((weekdays & weekend).words(), field(0xC06));
    assert_eq!((weekdays - weekend, (weekdays - weekdays).day_count()), (weekdays, 0));
    assert_eq!((weekdays.day_count(), weekend.day_count(), (weekdays | weekend).day_count()), (5, 2, 7));
}

#[test]
fn refused() {
    let words = trial_week();
    let table = Table::new(&words);
    assert_eq!(table.bit_field(2), Err(Refusal::NoSuchBitField));
    for wrong in [&field(0xFE4)[..], &field(0xFF3), &field(0xFE6)[..11], &[0; 13], &[]] {
        assert_eq!(table.bit_field_from(wrong), Err(Refusal::NotAField));
    }
    assert_eq!(Table::new(&[]).bit_field(0), Err(Refusal::NotAField));
    assert_eq!(Table::new(&[9, 0, u32::MAX, 0, 0, 0, 0, 9, 0]).bit_field(0), Err(Refusal::NotAField));
}

/// A whole year and more: each of the 380 days.
#[test]
fn longest_period() {
    let table = Table::new(&[9, 0, 380, 0, 0, 0, 0, 9, 0]);
    let daily = table.bit_field(0).unwrap();
    assert_eq!((daily.words(), daily.day_count(), (!daily).day_count()), ([u32::MAX; 12], 380, 0));
}

/// Bit fields of one table only, though another has as many days.
#[test]
#[should_panic(expected = "bit fields of two tables")]
fn two_tables() {
    let (words, others) = (trial_week(), trial_week());
    let (weekdays, daily) = (Table::new(&words).bit_field(1).unwrap(), Table::new(&others).bit_field(0).unwrap());
    let _ = weekdays | daily;
}
