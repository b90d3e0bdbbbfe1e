//! `ordinary-loader [DIRECTORY]`: loads the delivery of a directory (else of this one), and prints what the program of
//! document 01 prints: `accepted ..`, `refused N file F line L column C`, or `unread file F`.

use std::path::Path;
use std::process::exit;

use ordinary_loader::{words_of, Files, Refusal};

const NAMES: [&str; 6] = ["ECKDATEN", "BITFELD", "BAHNHOF", "UMSTEIGB", "FPLAN", "ZUGART"];

fn main() {
    let directory = std::env::args().nth(1).unwrap_or_else(|| ".".to_string());
    let [eckdaten, bitfeld, bahnhof, umsteigb, fplan, zugart] = &read_all(Path::new(&directory));
    match words_of(&Files { eckdaten, bitfeld, bahnhof, umsteigb, fplan, zugart }) {
        Ok(words) => println!(
            "accepted days {} bitfields {} stops {} interchange {} categories {} services {} words {}",
            words[2], words[3], words[4], words[5], words[8], words[6], words[0]
        ),
        Err(Refusal { number, file, line, column, .. }) => {
            println!("refused {} file {} line {} column {}", number, file, line, column)
        }
    }
}

/// The bytes of all files.
fn read_all(directory: &Path) -> [Vec<u8>; 6] {
    let mut number = 0;
    NAMES.map(|name| {
        number += 1;
        std::fs::read(directory.join(name)).unwrap_or_else(|_| {
            println!("unread file {}", number);
            exit(1)
        })
    })
}
