//! The files of the trial week, which more than one test loads: one bit field, three stops, one record, one category.

use estelunya_planner::Files;

pub const TRIAL_WEEK: Files<'static> = Files {
    eckdaten: include_bytes!("../../../crates/ferry/data/ECKDATEN"),
    bitfeld: include_bytes!("../../../crates/ferry/data/BITFELD"),
    bahnhof: include_bytes!("../../../crates/ferry/data/BAHNHOF"),
    umsteigb: include_bytes!("../../../crates/ferry/data/UMSTEIGB"),
    fplan: include_bytes!("../../../crates/ferry/data/FPLAN"),
    zugart: include_bytes!("../../../crates/ferry/data/ZUGART"),
};
