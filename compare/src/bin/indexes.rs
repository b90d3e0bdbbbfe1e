//! Indexes made and checked by the linked archive beside the reader's: `tools/requests.sh indexes` makes and runs it.
//!
//!     indexes SEED COUNT [FIRST]

use compare::requests::{indexes, run};

#[path = "../exported/indexes.rs"]
mod exported;

use exported::Exported;

fn main() {
    run("indexes", indexes::ANSWERS, |turn, index| indexes::compare(turn, index, &Exported));
}
