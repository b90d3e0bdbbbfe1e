//! The files of a delivery, by name in a directory, in the order of their numbers.

use std::fs;
use std::io;
use std::path::Path;

pub const NAMES: [&str; 6] = ["ECKDATEN", "BITFELD", "BAHNHOF", "UMSTEIGB", "FPLAN", "ZUGART"];

pub fn read(directory: &Path) -> io::Result<[Vec<u8>; 6]> {
    let mut files: [Vec<u8>; 6] = Default::default();
    for (file, name) in files.iter_mut().zip(NAMES) {
        *file = fs::read(directory.join(name))?;
    }
    Ok(files)
}

/// Writes them into a directory that is made where it is missing.
pub fn write(directory: &Path, files: &[Vec<u8>; 6]) -> io::Result<()> {
    fs::create_dir_all(directory)?;
    NAMES.iter().zip(files).try_for_each(|(name, bytes)| fs::write(directory.join(name), bytes))
}
