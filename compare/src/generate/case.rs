//! Whole cases: six files, the room of the table, the helper words, and what they must bring if that is known.

use super::break_form::{break_form, pile_on};
use super::break_plan::{self, At};
use super::break_sheet;
use super::plan::{self, Given, Plan};
use super::rng::Rng;
use super::sheet::{bytes, sheet, Row, Sheet, Tag};
use super::Size;
use crate::layout::{
    BIT_FIELD_WORDS, CALL_WORDS, CATEGORY_WORDS, CLASS_WORDS, DAYS_WORDS, EXTRA_WORDS, HEADER_WORDS, HELPER_HEAD_WORDS,
    HELPER_LINE_WORDS, INTERCHANGE_WORDS, SERVICE_WORDS, STOP_WORDS,
};
use crate::reader::load::MOST_FILE_BYTES;

/// The refusal that a damage must bring; the column is 0 unless 4.
#[derive(Clone, Copy, Debug, PartialEq, Eq)]
pub struct Aim {
    pub number: u32,
    pub file: u32,
    pub line: u32,
    pub column: usize,
}

#[derive(Clone, Debug)]
pub struct Case {
    pub files: [Vec<u8>; 6],
    /// Words of the table to lend.
    pub room: usize,
    /// The helper words to lend, as they are before the load.
    pub helper: Vec<u32>,
    /// `None` where it is not known: after several damages, and after a mutation.
    pub aim: Option<Aim>,
    /// The plan and the lines of a delivery without damage.
    pub plan: Option<(Plan, Sheet)>,
}

impl Case {
    pub fn slices(&self) -> [&[u8]; 6] {
        let [a, b, c, d, e, f] = &self.files;
        [a, b, c, d, e, f]
    }
}

/// The words that the table of a plan takes.
pub fn planned_words(plan: &Plan) -> usize {
    let service_words = |service: &plan::Service| {
        let range_words = |range: &plan::Range| match range.given {
            Given::Category(_) => CATEGORY_WORDS,
            Given::Days(_) => DAYS_WORDS,
            Given::Other(..) => EXTRA_WORDS,
        };
        SERVICE_WORDS + CALL_WORDS * service.calls.len() + service.ranges.iter().map(range_words).sum::<usize>()
    };
    let services: usize = plan.services.iter().map(service_words).sum();
    HEADER_WORDS
        + BIT_FIELD_WORDS * plan.bitfields.len()
        + STOP_WORDS * plan.stops.len()
        + INTERCHANGE_WORDS * plan.interchange.len()
        + CLASS_WORDS * plan.categories.len()
        + services
}

/// Room for so many words: just enough, or more.
fn enough_room(rng: &mut Rng, words: usize) -> usize {
    words + rng.pick(&[0, 0, 1, 7, 100])
}

/// The helper words that these lines ask for: document 02, No. 13.
fn planned_helper(sheet: &Sheet) -> usize {
    HELPER_HEAD_WORDS + HELPER_LINE_WORDS * sheet.files[1..4].iter().map(Vec::len).sum::<usize>()
}

/// The same of files whose lines are not known: each LF ends one, and what is behind the last LF is one.
pub fn counted_helper(files: &[Vec<u8>; 6]) -> usize {
    let lines = |file: &Vec<u8>| {
        let ends = file.iter().filter(|byte| **byte == b'\n').count();
        ends + usize::from(file.last().map_or(false, |byte| *byte != b'\n'))
    };
    HELPER_HEAD_WORDS + HELPER_LINE_WORDS * files[1..4].iter().map(lines).sum::<usize>()
}

/// So many helper words that hold anything.
fn lent_helper(rng: &mut Rng, words: usize) -> Vec<u32> {
    (0..words).map(|_| rng.draw() as u32 >> rng.pick(&[0, 0, 16, 28])).collect()
}

/// Helper words where so many are needed: just enough, or more.
fn enough_helper(rng: &mut Rng, needed: usize) -> Vec<u32> {
    let words = enough_room(rng, needed);
    lent_helper(rng, words)
}

/// Fewer helper words than are needed (51).
fn short_helper(rng: &mut Rng, needed: usize) -> Vec<u32> {
    let fewer = rng.index(needed);
    let words = rng.pick(&[0, HELPER_HEAD_WORDS - 1, needed - HELPER_LINE_WORDS, needed - 1, needed - 1, fewer]);
    lent_helper(rng, words)
}

/// Enough, and once in so many times fewer.
pub fn some_helper(rng: &mut Rng, needed: usize, rare: u32) -> Vec<u32> {
    if rng.once_in(rare) {
        short_helper(rng, needed)
    } else {
        enough_helper(rng, needed)
    }
}

fn files_of(rng: &mut Rng, sheet: &Sheet) -> [Vec<u8>; 6] {
    let mut files: [Vec<u8>; 6] = Default::default();
    for (file, rows) in files.iter_mut().zip(&sheet.files) {
        *file = bytes(rng, rows);
    }
    files
}

/// (a) A delivery that breaks no rule, with room enough.
pub fn valid(rng: &mut Rng, size: Size) -> Case {
    let plan = plan::random(rng, size);
    let sheet = sheet(rng, &plan);
    let files = files_of(rng, &sheet);
    let room = enough_room(rng, planned_words(&plan));
    let helper = enough_helper(rng, planned_helper(&sheet));
    Case { files, room, helper, aim: None, plan: Some((plan, sheet)) }
}

/// The refusals that a delivery can be damaged for.
pub const DAMAGES: [u32; 23] = [2, 3, 4, 5, 6, 7, 8, 9, 10, 11, 12, 13, 14, 15, 16, 17, 18, 19, 20, 37, 38, 39, 51];

/// (b) A delivery that breaks one clause of one of these refusals, and nothing before it.
pub fn damaged(rng: &mut Rng, size: Size, number: u32) -> Case {
    loop {
        let mut plan = plan::random(rng, size);
        if let Some(case) = try_damage(rng, &mut plan, number) {
            return case;
        }
    }
}

fn try_damage(rng: &mut Rng, plan: &mut Plan, number: u32) -> Option<Case> {
    let on_plan: Vec<break_plan::PlanDamage> = fitting(break_plan::DAMAGES, number);
    let on_sheet: Vec<break_sheet::SheetDamage> = fitting(break_sheet::DAMAGES, number);
    let mut hit = None;
    if !on_plan.is_empty() {
        hit = Some(rng.pick(&on_plan)(rng, plan)?);
    }
    let mut sheet = sheet(rng, plan);
    if !on_sheet.is_empty() {
        hit = Some(rng.pick(&on_sheet)(rng, plan, &mut sheet)?);
    }
    let words = planned_words(plan);
    let mut room = enough_room(rng, words);
    let aim = match (number, hit) {
        (4, _) => {
            let (file, at, column) = break_form(rng, &mut sheet)?;
            Aim { number, file, line: at as u32 + 1, column }
        }
        (20, _) => {
            let fewer = rng.index(words);
            room = rng.pick(&[0, words - 1, words - 1, fewer]);
            Aim { number, file: 0, line: 0, column: 0 }
        }
        (51, _) => {
            // "directly after 1": whatever else is wrong
            if rng.coin() {
                break_form(rng, &mut sheet);
                room = rng.index(words);
            }
            Aim { number, file: 0, line: 0, column: 0 }
        }
        (_, Some((file, at))) => Aim { number, file, line: line_of(&sheet.files[file as usize - 1], at)?, column: 0 },
        (_, None) => return None,
    };
    let needed = planned_helper(&sheet);
    let helper = if number == 51 { short_helper(rng, needed) } else { enough_helper(rng, needed) };
    let files = files_of(rng, &sheet);
    Some(Case { files, room, helper, aim: Some(aim), plan: None })
}

fn fitting<T: Copy>(damages: &[(u32, T)], number: u32) -> Vec<T> {
    damages.iter().filter(|(of, _)| *of == number).map(|(_, damage)| *damage).collect()
}

fn line_of(rows: &[Row], at: At) -> Option<u32> {
    let place = match at {
        At::Line(line) => return Some(line),
        At::Tag(tag) => rows.iter().position(|row| row.tag == tag),
        At::Nth(like, nth) => {
            let mut alike = (0..rows.len()).filter(|i| same_service_and_kind(rows[*i].tag, like));
            alike.nth(nth)
        }
    };
    place.map(|place| place as u32 + 1)
}

fn same_service_and_kind(a: Tag, b: Tag) -> bool {
    match (a, b) {
        (Tag::Call(s, _), Tag::Call(t, _))
        | (Tag::G(s, _), Tag::G(t, _))
        | (Tag::Ve(s, _), Tag::Ve(t, _))
        | (Tag::Other(s, _), Tag::Other(t, _)) => s == t,
        _ => false,
    }
}

/// Some damages at once, often in one line or one service: which refusal comes first is for the readers to say.
pub fn several(rng: &mut Rng, size: Size) -> Case {
    let mut plan = plan::random(rng, size);
    let mut hits = Vec::new();
    for _ in 0..rng.between(0, 2) {
        let mut tried = plan.clone();
        let hit = rng.pick(break_plan::DAMAGES).1(rng, &mut tried);
        if hit.is_some() && tried.services.iter().all(|service| service.calls.len() > 1) {
            plan = tried;
            hits.extend(hit);
        }
    }
    let mut sheet = sheet(rng, &plan);
    if rng.once_in(3) {
        rng.pick(break_sheet::DAMAGES).1(rng, &plan, &mut sheet);
    }
    for (file, at) in hits {
        let rows = &mut sheet.files[file as usize - 1];
        if let (Some(line), true) = (line_of(rows, at), rng.coin()) {
            pile_on(rng, &mut rows[line as usize - 1]);
        }
    }
    for _ in 0..rng.pick(&[0, 0, 1, 2]) {
        break_form(rng, &mut sheet);
    }
    let words = planned_words(&plan);
    let room = rng.pick(&[words, words, words - 1]);
    let helper = some_helper(rng, planned_helper(&sheet), 8);
    let files = files_of(rng, &sheet);
    Case { files, room, helper, aim: None, plan: None }
}

/// (c) A delivery with one to three bytes or lines changed.
pub fn mutated(rng: &mut Rng, size: Size) -> Case {
    let mut case = match rng.below(3) {
        0 => several(rng, size),
        _ => valid(rng, size),
    };
    for _ in 0..rng.between(1, 3) {
        let file = rng.pick(&[0, 1, 2, 3, 5, 4, 4, 4]);
        match rng.below(2) {
            0 => mutate_bytes(rng, &mut case.files[file]),
            _ => mutate_lines(rng, &mut case.files[file]),
        }
    }
    if rng.once_in(60) {
        case.files.swap(rng.index(6), rng.index(6));
    }
    // Else as many as before, which a line more or less makes too few or further ones.
    if !rng.once_in(6) {
        case.helper = some_helper(rng, counted_helper(&case.files), 8);
    }
    Case { aim: None, plan: None, ..case }
}

/// A byte that is likely to mean something.
fn telling_byte(rng: &mut Rng) -> u8 {
    match rng.below(3) {
        0 => rng.below(256) as u8,
        _ => rng.pick(b"0123456789 \n\r%*#-XZTGAVE.\t$<>d"),
    }
}

fn mutate_bytes(rng: &mut Rng, file: &mut Vec<u8>) {
    let byte = telling_byte(rng);
    let at = rng.index(file.len() + 1);
    match rng.below(8) {
        0..=3 if at < file.len() => file[at] = byte,
        4 if at < file.len() => {
            file.remove(at);
        }
        5 => file.truncate(at),
        6 => file.push(rng.pick(b"\r\n %")),
        _ => file.insert(at, byte),
    }
}

fn mutate_lines(rng: &mut Rng, file: &mut Vec<u8>) {
    let mut pieces: Vec<Vec<u8>> = file.split(|byte| *byte == b'\n').map(<[u8]>::to_vec).collect();
    let (i, j) = (rng.index(pieces.len()), rng.index(pieces.len()));
    match rng.below(6) {
        0 => {
            pieces.remove(i);
        }
        1 => pieces.insert(j, pieces[i].clone()),
        2 => pieces.swap(i, j),
        3 => pieces[i].extend(b"  \r"),
        4 => pieces.iter_mut().for_each(|piece| other_opening(rng, piece)),
        _ => pieces[i] = pieces[j].clone(),
    }
    *file = pieces.join(&b'\n');
}

/// Now and then a *Z line becomes a *T line, or a *T line a *Z line, with the columns that it has.
fn other_opening(rng: &mut Rng, line: &mut [u8]) {
    if let ([b'*', letter @ (b'Z' | b'T'), b' ', ..], true) = (line, rng.coin()) {
        *letter = if *letter == b'Z' { b'T' } else { b'Z' };
    }
}

/// The cases of a long run: turn by turn valid, damaged (each refusal in turn), several damages, mutated.
pub fn mixed(rng: &mut Rng, turn: u32) -> Case {
    let size = match rng.below(300) {
        0 => Size::Large,
        1..=60 => Size::Medium,
        _ => Size::Small,
    };
    match turn % 5 {
        0 => valid(rng, size),
        1 | 2 => damaged(rng, size, DAMAGES[turn as usize / 5 % DAMAGES.len()]),
        3 => several(rng, size),
        _ => mutated(rng, size),
    }
}

/// Refusal 1: a file of exactly 16,777,216 bytes, or of some more; often with too few helper words. These cases are large, so
/// they are rare.
pub fn oversized(rng: &mut Rng) -> Case {
    let mut case = valid(rng, Size::Small);
    let file = rng.index(6);
    let bytes = &mut case.files[file];
    if file > 0 && bytes.last() != Some(&b'\n') {
        bytes.extend_from_slice(b"\n%");
    } else if file == 0 {
        while matches!(bytes.last(), Some(b'\n' | b'\r')) {
            bytes.pop();
        }
        bytes.push(b'.');
    }
    let size = rng.pick(&[MOST_FILE_BYTES, MOST_FILE_BYTES + 1, MOST_FILE_BYTES + 1_000]);
    bytes.resize(size, b' ');
    let needed = counted_helper(&case.files);
    let short = rng.coin();
    case.helper = if short { short_helper(rng, needed) } else { enough_helper(rng, needed) };
    case.aim = match (size > MOST_FILE_BYTES, short) {
        (true, _) => Some(Aim { number: 1, file: file as u32 + 1, line: 0, column: 0 }),
        (false, true) => Some(Aim { number: 51, file: 0, line: 0, column: 0 }),
        (false, false) => return case,
    };
    Case { plan: None, ..case }
}
