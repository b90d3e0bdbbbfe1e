//! The quick questions of the linked archive beside the reader's plain ones: `tools/requests.sh quick` makes and runs it.
//!
//!     quick SEED COUNT [FIRST]

use compare::requests::{quick, run};

#[path = "../exported/quick.rs"]
mod exported;

use exported::Exported;

fn main() {
    run("quick", quick::ANSWERS, |turn, index| quick::compare(turn, index, &Exported));
}
