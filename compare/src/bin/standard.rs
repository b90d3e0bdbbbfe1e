//! Loads and walks the standard's printed examples over the linked archive: `standard: N examples, 0 differences`, status 0;
//! else what differs, status 1.

use std::process::exit;

use compare::boundary::Boundary;
use compare::standard::examples;

#[path = "../archive.rs"]
mod archive;
#[path = "../planner.rs"]
mod planner;

use archive::Archive;
use planner::Planner;

fn main() {
    let count = examples(&Archive).len();
    let differences = differing("the archive", &Archive) + differing("the planner's layer", &Planner);
    println!("standard: {} examples, {} differences", count, differences);
    if differences > 0 {
        exit(1);
    }
}

/// Prints the examples, and counts those that differ.
fn differing(by: &str, boundary: &dyn Boundary) -> usize {
    println!("{}:", by);
    let mut differences = 0;
    for checked in examples(boundary) {
        if checked.holds() {
            println!("  {}", checked.text);
        } else {
            differences += 1;
            println!("  DIFFERS {}\n    must be {:?}\n    is      {:?}", checked.text, checked.expected, checked.found);
        }
    }
    differences
}
