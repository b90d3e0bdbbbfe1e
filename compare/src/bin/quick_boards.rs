//! Quick departure boards of the linked archive beside the reader's: `tools/requests.sh quick_boards` makes and runs it.
//!
//!     quick_boards SEED COUNT [FIRST]

use compare::requests::{boards, run};

#[path = "../exported/quick_boards.rs"]
mod exported;

use exported::Exported;

fn main() {
    run("quick_boards", &boards::quick_answers(), |turn, _| boards::compare(turn, boards::By::Quick, &Exported));
}
