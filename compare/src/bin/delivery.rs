//! Compares the linked archive with the independent reader on generated deliveries, tables and bit fields.
//!
//!     delivery SEED COUNT [FIRST]
//!
//! Each case is loaded, asked and reckoned by the C functions and by the planner's safe layer over them; answers and every
//! word lent must be the reader's. `Program::run` says how it ends.

use compare::differ::{compare, Named, Program, CALLS};

#[path = "../archive.rs"]
mod archive;
#[path = "../planner.rs"]
mod planner;

use archive::Archive;
use planner::Planner;

const DELIVERY: Program = Program { name: "delivery", command: "tools/planner.sh", calls: &CALLS };

fn main() {
    let boundaries: [Named; 2] = [("the archive", &Archive), ("the planner's layer", &Planner)];
    DELIVERY.run(|seed, index, tally| compare(seed, index, &boundaries, tally));
}
