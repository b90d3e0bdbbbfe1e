//! Connections checked by an index, by the linked archive beside the reader's: `tools/requests.sh quick_connections` makes and runs it.
//!
//!     quick_connections SEED COUNT [FIRST]

use compare::requests::{connections, run};

#[path = "../exported/quick_connections.rs"]
mod exported;

use exported::Exported;

fn main() {
    run("quick_connections", &connections::quick_answers(), |turn, _| {
        connections::compare(turn, connections::By::Index, &Exported)
    });
}
