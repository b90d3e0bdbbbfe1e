//! Small deliveries of one week, 01.12.2025 (a Monday) to 07.12.2025, for examples worked by hand.

use super::{a, bitfield, call, category, file, g, t, text, z};
use crate::reader::{load, Loaded};

pub const ALL: (&str, &str) = ("", "");

pub const MONDAY: [u32; 3] = [1, 12, 2025];
pub const FRIDAY: [u32; 3] = [5, 12, 2025];
pub const SATURDAY: [u32; 3] = [6, 12, 2025];

pub const ALPHA: u32 = 1_000_011;
pub const BETA: u32 = 1_000_022;
pub const GAMMA: u32 = 1_000_033;

/// The files of a week: 000001 is Monday to Friday; BAT is of class 4, IC of class 1; every change takes 2 minutes between classes to 2, else 3.
pub fn week(fplan: &[String]) -> [Vec<u8>; 6] {
    [
        text(&["01.12.2025", "07.12.2025", "Week"]),
        file(&[bitfield("000001", "FE6")]),
        text(&["1000011     Alpha", "1000022     Beta", "1000033     Gamma"]),
        text(&["9999999  2  3"]),
        file(fplan),
        file(&[category("BAT", 4, ""), category("IC ", 1, "")]),
    ]
}

/// The table of a delivery that is accepted.
pub fn table_of(files: &[Vec<u8>; 6]) -> Vec<u32> {
    let (mut table, mut helper) = (vec![7; 2_000], vec![7; 200]);
    let [a, b, c, d, e, f] = files;
    match load([a, b, c, d, e, f], &mut table, &mut helper) {
        Loaded::Accepted { words } => table.truncate(words as usize),
        refused => panic!("{:?}", refused),
    }
    table
}

/// Document 01's route R, on Monday to Friday.
pub fn route_r() -> Vec<String> {
    vec![
        z("00042", "FERRY_", "", ""),
        g("BAT", ALL, ALL),
        a("VE", ALL, ALL, "000001"),
        call("1000011", "", " 00800"),
        call("1000022", " 00810", " 00812"),
        call("1000033", " 00830", " 00835"),
        call("1000022", " 00855", ""),
    ]
}

/// Three services: route R; over midnight every seven and a half minutes, five times, with no boarding at Alpha; and three runs from Beta to Gamma.
pub fn three_services() -> Vec<u32> {
    let late = vec![
        t("00007", "FERRY_", "0030", "0450"),
        g("BAT", ALL, ALL),
        a("VE", ALL, ALL, ""),
        call("1000022", "", " 02350"),
        call("1000011", " 02405", "-02406"),
        call("1000033", " 02420", ""),
    ];
    let repeated = vec![
        z("00009", "FERRY_", "002", "012"),
        g("IC ", ALL, ALL),
        a("VE", ALL, ALL, "000000"),
        call("1000022", "", " 00812"),
        call("1000033", " 00820", ""),
    ];
    table_of(&week(&[route_r(), late, repeated].concat()))
}
