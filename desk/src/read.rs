//! The six files of a delivery, read from their directory; all that cannot be read at once, and what is there in their place.

use std::collections::BTreeSet;
use std::fs;
use std::io::{self, Read};
use std::path::Path;

use estelunya_planner::layout::MOST_FILE_BYTES;
use estelunya_planner::File;

use super::lines::{columns, kind, lines, text, Delivery, Kind, FPLAN};

/// Why a delivery cannot be read.
#[derive(Clone, Debug, PartialEq, Eq)]
pub struct Unread {
    /// Each file that could not be read, and why.
    pub files: Vec<(File, String)>,
    /// What is there, and what a file that is missing must have.
    pub looks: Vec<String>,
}

/// The files of a directory, or all that could not be read.
pub fn read(directory: &Path) -> Result<Delivery, Unread> {
    let mut delivery = Delivery { files: Default::default() };
    let mut unread = Unread { files: Vec::new(), looks: Vec::new() };
    for (place, file) in delivery.files.iter_mut().zip(File::ALL) {
        let path = directory.join(file.name());
        match whole(&path) {
            Ok(bytes) => *place = bytes,
            Err(error) => unread.files.push((file, format!("{}: {}", path.display(), error))),
        }
    }
    if unread.files.is_empty() {
        return Ok(delivery);
    }
    unread.looks = instead(directory, &unread.files);
    if unread.files.iter().any(|(file, _)| *file == File::Zugart) {
        unread.looks.extend(categories(delivery.file(FPLAN)));
    }
    Err(unread)
}

/// A file, of one that is too long only so much that this can be seen; a directory, a pipe or a device is none.
fn whole(path: &Path) -> io::Result<Vec<u8>> {
    if !fs::metadata(path)?.is_file() {
        return Err(io::Error::new(io::ErrorKind::InvalidInput, "it is no file"));
    }
    let mut bytes = Vec::new();
    fs::File::open(path)?.take(MOST_FILE_BYTES as u64 + 1).read_to_end(&mut bytes)?;
    Ok(bytes)
}

/// What the directory has that is named nearly so.
fn instead(directory: &Path, missing: &[(File, String)]) -> Vec<String> {
    let entries = match fs::read_dir(directory) {
        Ok(entries) => entries,
        Err(_) => return Vec::new(),
    };
    let there: BTreeSet<String> = entries.filter_map(|entry| entry.ok()?.file_name().into_string().ok()).collect();
    let alike = |name: &String, file: File| {
        let stem = name.split('.').next().unwrap_or("");
        name != file.name() && stem.eq_ignore_ascii_case(file.name())
    };
    let told = |(file, _): &(File, String)| {
        let found = there.iter().find(|name| alike(name, *file))?;
        let why = if found.contains('.') { "names have nothing behind them" } else { "names are capitals" };
        Some(format!("`{}` is there: {}, {}", found, why, file.name()))
    };
    missing.iter().filter_map(told).collect()
}

/// What ZUGART must have, by the *G lines of FPLAN: an old exporter leaves it out.
fn categories(fplan: &[u8]) -> Vec<String> {
    let codes: BTreeSet<Vec<u8>> =
        lines(fplan).filter(|line| kind(line) == Kind::Category).map(|line| columns(line, 4, 6)).collect();
    let mut looks = vec![
        "ZUGART has a line for each category of a *G line: code in columns 1-3, class 0 to 13 at the right edge of 5-6, 0 in 10 and 21".to_string(),
    ];
    if !codes.is_empty() {
        let named: Vec<String> = codes.iter().take(20).map(|code| format!("`{}`", text(code))).collect();
        let more = if codes.len() > 20 { format!(" and {} more", codes.len() - 20) } else { String::new() };
        looks.push(format!("FPLAN has {}{}; one of its lines, with the class in place of NN:", named.join(", "), more));
        looks.extend(codes.iter().next().map(|code| format!("  {} NN   0 {}      0", text(code), text(code))));
    }
    looks
}
