//! Departure boards of the linked archive beside the reader's: `tools/requests.sh boards` makes and runs it.
//!
//!     boards SEED COUNT [FIRST]

use compare::requests::{boards, run};

#[path = "../exported/boards.rs"]
mod exported;

use exported::Exported;

fn main() {
    run("boards", boards::ANSWERS, |turn, _| boards::compare(turn, boards::By::Checked, &Exported));
}
