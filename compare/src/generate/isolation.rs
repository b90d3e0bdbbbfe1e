//! Pairs of deliveries (document 02, No. 14): one service's block of FPLAN edited, and bit field numbers changed one-to-one.

use std::collections::HashMap;

use super::case::{valid, Case};
use super::rng::Rng;
use super::Size;
use crate::reader::fields::{kind, LineKind};
use crate::reader::lines::skipped;

/// Two deliveries whose FPLAN differs in the block of one service alone.
#[derive(Clone, Debug)]
pub struct Edited {
    pub before: [Vec<u8>; 6],
    pub after: [Vec<u8>; 6],
    /// The service whose block it is.
    pub service: u32,
}

/// A delivery, the same with other bit field numbers, and these.
#[derive(Clone, Debug)]
pub struct Renamed {
    pub before: [Vec<u8>; 6],
    pub after: [Vec<u8>; 6],
    pub numbers: HashMap<u32, u32>,
}

/// FPLAN in parts, each with its line ends: what stands before the first service, then the block of each. Lines skipped between two services belong to the block before.
fn blocks(fplan: &[u8]) -> (Vec<u8>, Vec<Vec<u8>>) {
    let (mut front, mut found): (Vec<u8>, Vec<Vec<u8>>) = (Vec::new(), Vec::new());
    for piece in fplan.split_inclusive(|byte| *byte == b'\n') {
        let text = without_end(piece);
        if !skipped(text) && matches!(kind(text), LineKind::Z | LineKind::T) {
            found.push(Vec::new());
        }
        found.last_mut().unwrap_or(&mut front).extend_from_slice(piece);
    }
    (front, found)
}

/// A line without LF and the CR before it.
fn without_end(piece: &[u8]) -> &[u8] {
    let text = piece.strip_suffix(b"\n").unwrap_or(piece);
    text.strip_suffix(b"\r").unwrap_or(text)
}

/// A block that another may follow.
fn ended(mut block: Vec<u8>) -> Vec<u8> {
    if block.last() != Some(&b'\n') {
        block.push(b'\n');
    }
    block
}

/// Two deliveries in which one block is another service's; that service itself is in neither. `None` where a delivery has too few.
pub fn edited(rng: &mut Rng, size: Size) -> Option<Edited> {
    let Case { mut files, .. } = valid(rng, size);
    let (front, mut all) = blocks(&files[4]);
    if all.len() < 2 {
        return None;
    }
    let other = all.remove(rng.index(all.len()));
    let at = rng.index(all.len());
    let last = at + 1 == all.len();
    let joined = |block: &Vec<u8>| {
        let mut parts = all.clone();
        parts[at] = block.clone();
        let ends = parts.len() - 1;
        parts.iter_mut().take(ends).for_each(|part| *part = ended(std::mem::take(part)));
        [&front[..], &parts.concat()].concat()
    };
    // x and y end in LF unless nothing follows
    let (x, y) = if last { (all[at].clone(), other) } else { (ended(all[at].clone()), ended(other)) };
    let (before, after) = (joined(&x), joined(&y));
    files[4] = before;
    let mut changed = files.clone();
    changed[4] = after;
    Some(Edited { before: files, after: changed, service: at as u32 })
}

/// Columns 1-6 of BITFELD's records, and 23-28 of FPLAN's *A lines.
pub fn renamed(rng: &mut Rng, size: Size) -> Renamed {
    let Case { files, plan, .. } = valid(rng, size);
    let listed: Vec<u32> = plan.iter().flat_map(|(plan, _)| plan.bitfields.iter().map(|(number, _)| *number)).collect();
    let numbers = one_to_one(rng, &listed);
    let mut after = files.clone();
    after[1] = by_lines(&files[1], |line| rename(line, 0, &numbers));
    after[4] = by_lines(&files[4], |line| {
        if kind(line) == LineKind::A {
            rename(line, 22, &numbers);
        }
    });
    Renamed { before: files, after, numbers }
}

/// New numbers for these: exchanged among themselves, or drawn from all, or some of each.
fn one_to_one(rng: &mut Rng, listed: &[u32]) -> HashMap<u32, u32> {
    let mut images: Vec<u32> = listed.to_vec();
    rng.shuffle(&mut images);
    if rng.coin() {
        for at in 0..images.len() {
            let new = rng.between(1, 999_999);
            if rng.coin() && !images.contains(&new) {
                images[at] = new;
            }
        }
    }
    listed.iter().copied().zip(images).collect()
}

/// Each line that is not skipped changed in its place; line ends stay.
fn by_lines(file: &[u8], change: impl Fn(&mut [u8])) -> Vec<u8> {
    let mut all = Vec::with_capacity(file.len());
    for piece in file.split_inclusive(|byte| *byte == b'\n') {
        let length = without_end(piece).len();
        let mut line = piece.to_vec();
        if !skipped(&piece[..length]) {
            change(&mut line[..length]);
        }
        all.extend(line);
    }
    all
}

/// The six digits from here on, where they are a number that is renamed; blanks and 000000 stay.
fn rename(line: &mut [u8], at: usize, numbers: &HashMap<u32, u32>) {
    if let Some(field) = line.get_mut(at..at + 6) {
        let number = std::str::from_utf8(field).ok().and_then(|text| text.parse::<u32>().ok());
        if let Some(new) = number.and_then(|number| numbers.get(&number)) {
            field.copy_from_slice(format!("{:06}", new).as_bytes());
        }
    }
}
