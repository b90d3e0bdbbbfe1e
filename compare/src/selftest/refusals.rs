//! docs/REFUSALS.md: its examples bring what they say, and its marks stand at the columns that they name.

use std::collections::BTreeSet;

use super::file;
use crate::boundary::{Boundary, Reader};

const DOCUMENT: &str = include_str!("../../../docs/REFUSALS.md");

/// A block of the document's indented lines.
type Block = Vec<&'static str>;

type Files = [Vec<u8>; 6];

fn blocks() -> Vec<Block> {
    let mut blocks = vec![Block::new()];
    for line in DOCUMENT.lines() {
        match line.strip_prefix("    ") {
            Some(text) => blocks.last_mut().unwrap().push(text),
            None => blocks.push(Block::new()),
        }
    }
    blocks.retain(|block| !block.is_empty());
    blocks
}

/// A row of ^, with what it says behind.
fn is_mark(line: &str) -> bool {
    line.trim_start().starts_with('^')
}

/// The columns that a mark's ^ stand at, from 1.
fn marked(mark: &str) -> Vec<(usize, usize)> {
    let mut runs: Vec<(usize, usize)> = Vec::new();
    for (column, _) in (1..).zip(mark.chars()).filter(|(_, character)| *character == '^') {
        match runs.last_mut() {
            Some(run) if run.1 + 1 == column => run.1 = column,
            _ => runs.push((column, column)),
        }
    }
    runs
}

/// The columns that a mark's text names: "1-7 stop, 59 ..".
fn named(mark: &str) -> Vec<(usize, usize)> {
    let text = mark.trim_start_matches(['^', ' ']);
    let columns = text.split(", ").map(|part| part.split(' ').next().unwrap());
    let pair = |columns: &str| {
        let (first, last) = columns.split_once('-').unwrap_or((columns, columns));
        (first.parse().unwrap(), last.parse().unwrap())
    };
    columns.map(pair).collect()
}

/// The lines of a file: marks left out, "(N more such lines)" written out.
fn written(lines: &[&str]) -> Vec<String> {
    let mut all: Vec<String> = Vec::new();
    for line in lines.iter().filter(|line| !is_mark(line)) {
        match line.strip_prefix('(').and_then(|rest| rest.strip_suffix(" more such lines)")) {
            Some(times) => {
                let last = all.last().unwrap().clone();
                all.extend(std::iter::repeat(last).take(times.parse().unwrap()));
            }
            None => all.push(line.to_string()),
        }
    }
    all
}

/// The numbers of a line `refused N file F line L column C`.
fn numbers(head: &str) -> Option<[u32; 4]> {
    let parts: Vec<&str> = head.split(' ').collect();
    match parts[..] {
        ["refused", n, "file", f, "line", l, "column", c] => {
            Some([n.parse().ok()?, f.parse().ok()?, l.parse().ok()?, c.parse().ok()?])
        }
        _ => None,
    }
}

/// The blocks "file N NAME" together.
fn trial_week() -> Files {
    let mut files = Files::default();
    for block in blocks() {
        if let Some(rest) = block[0].strip_prefix("file ") {
            let number: usize = rest.split(' ').next().unwrap().parse().unwrap();
            files[number - 1] = file(&written(&block[1..]));
        }
    }
    files
}

/// One line stands in the place of the line named, or after the last; more are the whole file.
fn with(mut files: Files, number: u32, line: u32, lines: Vec<String>) -> Files {
    let place = &mut files[number as usize - 1];
    if lines.len() == 1 {
        let mut all: Vec<String> = String::from_utf8(place.clone()).unwrap().lines().map(str::to_string).collect();
        let at = line as usize - 1;
        all.splice(at..all.len().min(at + 1), lines);
        *place = file(&all);
    } else {
        *place = file(&lines);
    }
    files
}

/// number, file, line, words, column
fn answer(files: &Files, room: usize) -> [u32; 5] {
    helped(files, room, 5_000)
}

/// The same with so many helper words.
fn helped(files: &Files, room: usize, helper: usize) -> [u32; 5] {
    let [a, b, c, d, e, f] = files;
    Reader.load([a, b, c, d, e, f], &mut vec![0; room], &mut vec![0; helper])
}

fn check_example([number, of, line, column]: [u32; 4], lines: &[&str]) {
    if number == 1 {
        let mut files = trial_week();
        files[of as usize - 1].resize(16_777_217, b' ');
        assert_eq!(answer(&files, 82), [number, of, line, 0, column]);
        return;
    }
    if number == 20 {
        assert_eq!(answer(&trial_week(), 81), [number, of, line, 82, column]);
        return;
    }
    if number == 51 {
        assert_eq!(helped(&trial_week(), 82, 83), [number, of, line, 84, column]);
        assert_eq!(helped(&trial_week(), 82, 84)[0], 0);
        return;
    }
    let cut = lines.iter().position(|line| *line == "mended").unwrap();
    let (wrong, mended) = (&lines[..cut], &lines[cut + 1..]);
    let files = with(trial_week(), of, line, written(wrong));
    assert_eq!(answer(&files, 500), [number, of, line, 0, column], "{:?}", wrong);
    let files = with(trial_week(), of, line, written(mended));
    assert_eq!(answer(&files, 500)[0], 0, "{:?}", mended);
}

#[test]
fn the_trial_week() {
    assert_eq!(answer(&trial_week(), 82), [0, 0, 0, 82, 0]);
}

#[test]
fn examples() {
    let mut shown = BTreeSet::new();
    for block in blocks() {
        if block[0].starts_with("refused ") && block[0] != "refused N file F line L column C" {
            let refusal = numbers(block[0]).unwrap_or_else(|| panic!("{}", block[0]));
            check_example(refusal, &block[1..]);
            shown.insert(refusal[0]);
        }
    }
    assert!(shown.into_iter().eq((1..=20).chain([37, 38, 39, 51])));
}

#[test]
fn marks() {
    let marks: Vec<&str> =
        DOCUMENT.lines().filter_map(|line| line.strip_prefix("    ")).filter(|line| is_mark(line)).collect();
    assert!(marks.len() > 40);
    for mark in marks {
        assert_eq!(marked(mark), named(mark), "{}", mark);
    }
}
