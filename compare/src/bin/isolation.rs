//! Document 02, No. 14 by the linked archive: `tools/requests.sh isolation` makes and runs it.
//!
//!     isolation SEED COUNT [FIRST]

use compare::requests::{isolation, run};

#[path = "../archive.rs"]
mod archive;

use archive::Archive;

fn main() {
    run("isolation", isolation::ANSWERS, |turn, _| isolation::compare(turn, &Archive));
}
