//! Connections checked by the linked archive beside the reader's: `tools/requests.sh connections` makes and runs it.
//!
//!     connections SEED COUNT [FIRST]

use compare::requests::{connections, run};

#[path = "../exported/connections.rs"]
mod exported;

use exported::Exported;

fn main() {
    run("connections", connections::ANSWERS, |turn, _| connections::compare(turn, connections::By::Table, &Exported));
}
