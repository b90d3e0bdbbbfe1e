//! FPLAN written by the linked archive beside the reader's, and the round trip: `tools/requests.sh writes` makes and runs it.
//!
//!     writes SEED COUNT [FIRST]

use compare::requests::{run, writes};

#[path = "../archive.rs"]
mod archive;
#[path = "../exported/writes.rs"]
mod exported;

use archive::Archive;
use exported::Exported;

fn main() {
    run("writes", writes::ANSWERS, |turn, _| writes::compare(turn, &Exported, &Archive));
}
