//! Fields that stand beside their columns, lines that are broken in two or stand in one: what is there is right, and only its place is wrong. A mend that fills or blanks
//! the columns would change the data.

use super::form::{end_of, offences};
use super::lines::{column, columns, digits, field_at, fields, kind, line, text, Field, Kind, Rule, FPLAN};

/// How far off a field is looked for.
const FARTHEST: usize = 12;

/// How many bytes of what is moved are told.
const MOST_TOLD: usize = 20;

/// Columns that are meant elsewhere in their line.
#[derive(Clone, Debug, PartialEq, Eq)]
pub struct Moved {
    /// First column of what is moved.
    pub first: usize,
    /// Its last column; if all that follows is moved too, that of its first piece.
    pub last: usize,
    /// By how many columns it stands too far right, or, below 0, too far left.
    pub by: isize,
    /// Whether all that follows is moved with it.
    pub rest: bool,
    /// What is meant to stand there, and its columns.
    field: Field,
    what: String,
}

impl Moved {
    /// `the field stands in columns 24-29, moved by 1`
    pub fn says(&self) -> String {
        let (first, last, name, _) = self.field;
        let side = if self.by > 0 { "right" } else { "left" };
        let rest = if self.rest { ", and what follows with it" } else { "" };
        format!(
            "`{}` stands in {}, moved by {} to the {}{}: its field, {}, is {}",
            self.what,
            place(self.first, self.last),
            self.by.unsigned_abs(),
            side,
            rest,
            name,
            place(first, last)
        )
    }

    /// What is to be looked at first: where bytes are missing they may not have been blanks, and a number that is not at its right edge may have lost a digit.
    pub fn look(&self) -> Option<String> {
        let number = matches!(self.field.3, Rule::Count(_));
        match (number, self.by > 0, self.first == self.last) {
            (true, true, false) => Some(format!("`{}` may have a digit too many: then find out which", self.what)),
            (true, false, true) => Some(format!("`{}` may lack a digit behind it: then find out which", self.what)),
            (_, false, _) if self.rest => Some(too_short(self.by.unsigned_abs(), self.first)),
            _ => None,
        }
    }

    /// What to do.
    pub fn mend(&self) -> String {
        let (by, side) = (self.by.unsigned_abs(), if self.by > 0 { "left" } else { "right" });
        if self.rest {
            format!("move all from column {} on by {} to the {}", self.first, by, side)
        } else {
            format!("move {} by {} to the {}; the rest of the line stays", place(self.first, self.last), by, side)
        }
    }
}

/// What is to be looked at where so many bytes are missing in a line before a column.
pub fn too_short(count: usize, at: usize) -> String {
    format!(
        "the line is {} byte{} too short before column {}: if more than blanks are missing, find out what stood there",
        count,
        if count == 1 { "" } else { "s" },
        at
    )
}

/// Columns in words.
pub fn place(first: usize, last: usize) -> String {
    if first == last {
        format!("column {}", first)
    } else {
        format!("columns {}-{}", first, last)
    }
}

/// The pieces between blanks: first and last column of each, from `start` on.
fn pieces(line: &[u8], start: usize) -> Vec<(usize, usize)> {
    let mut found: Vec<(usize, usize)> = Vec::new();
    for at in (start..=line.len()).filter(|at| column(line, *at) != b' ') {
        match found.last_mut() {
            Some(piece) if piece.1 + 1 == at => piece.1 = at,
            _ => found.push((at, at)),
        }
    }
    found
}

/// The line with columns moved to where they are meant, `by` as in [`Moved`]; `None` where something else stands there.
pub fn put_right(line: &[u8], first: usize, last: Option<usize>, by: isize) -> Option<Vec<u8>> {
    let count = by.unsigned_abs();
    let mut out = line.to_vec();
    out.resize(out.len().max(last.unwrap_or(first) + count), b' ');
    if by > 0 {
        let start = first
            .checked_sub(1 + count)
            .filter(|_| columns(line, first - count, first - 1).iter().all(|byte| *byte == b' '))?;
        out.drain(start..first - 1);
        if let Some(last) = last {
            let at = last - count;
            out.splice(at..at, vec![b' '; count]);
        }
    } else {
        if let Some(last) = last {
            if columns(line, last + 1, last + count).iter().any(|byte| *byte != b' ') {
                return None;
            }
            out.drain(last..last + count);
        }
        out.splice(first - 1..first - 1, vec![b' '; count]);
    }
    Some(out)
}

/// What is moved in a line that breaks its form at a column, if putting it right mends the line there; `None` too where two ways are as near.
pub fn moved(file: u32, line: &[u8], at: usize) -> Option<Moved> {
    let mut found: Vec<(usize, usize, usize, Moved)> = Vec::new();
    for by in (1..=FARTHEST as isize).flat_map(|by| [by, -by]) {
        for (first, last, rest) in spans(file, line, by) {
            if let Some((left, moved)) = tried(file, line, at, (first, last, rest), by) {
                found.push((left, by.unsigned_abs(), last - first, moved));
            }
        }
    }
    found.sort_by_key(|(left, by, width, moved)| (*left, *by, *width, !moved.rest));
    let (left, by, _, best) = found.first()?;
    let against = |other: &(usize, usize, usize, Moved)| (other.0, other.1) == (*left, *by) && other.3.by != best.by;
    if found.iter().any(against) {
        return None;
    }
    Some(best.clone())
}

/// What may be moved: pieces that stand together, alone or with all that follows; and a field's width of a piece whose rest fills the field beside it.
fn spans(file: u32, line: &[u8], by: isize) -> Vec<(usize, usize, bool)> {
    let start = if file == FPLAN && line.first() == Some(&b'*') { 4 } else { 1 };
    let pieces = pieces(line, start);
    let mut spans: Vec<(usize, usize, bool)> = Vec::new();
    for (index, (first, last)) in pieces.iter().enumerate() {
        spans.push((*first, *last, true));
        spans.extend(pieces[index..].iter().map(|(_, last)| (*first, *last, false)));
    }
    let ends = |first: usize, last: usize| {
        first > last || fields(file, line).iter().any(|field| named(field) && field.0 <= first && field.1 == last)
    };
    let begins = |first: usize, last: usize| {
        let bounded = |field: &&Field| field.1 < usize::MAX && field.3 != Rule::Percent;
        first > last || fields(file, line).iter().filter(bounded).any(|field| field.0 == first && last <= field.1)
    };
    let of_one_width = |field: &&Field| named(field) && !matches!(field.3, Rule::Count(_));
    for field in fields(file, line).iter().filter(of_one_width) {
        let shifted = |at: usize| usize::try_from(at as isize + by).ok();
        if let (Some(first), Some(last)) = (shifted(field.0), shifted(field.1)) {
            let within = |piece: &&(usize, usize)| piece.0 <= first && last <= piece.1;
            let beside =
                pieces.iter().find(within).filter(|piece| ends(piece.0, first - 1) && begins(last + 1, piece.1));
            spans.extend(beside.map(|_| (first, last, false)));
        }
    }
    spans
}

/// How many offences are left when so much is moved, if that mends the line as far as it reaches.
fn tried(file: u32, line: &[u8], at: usize, span: (usize, usize, bool), by: isize) -> Option<(usize, Moved)> {
    let (first, last, rest) = span;
    let after =
        put_right(line, first, Some(last).filter(|_| !rest), by).filter(|after| lands(file, line, after, span, by))?;
    let field = *field_at(file, &after, usize::try_from(first as isize - by).ok()?)?;
    let (refused, near) =
        (field_at(file, line, at).map_or((at, at), |field| (field.0, field.1)), field.1 - field.0 + 1);
    let overlaps = |(from, to): (usize, usize)| refused.0 <= to && from <= refused.1;
    let beside = overlaps((first, last)) || overlaps((field.0, field.1));
    // a detail beside no stop takes anything, and what stands farther off may be another field's
    let unread =
        field.3 == Rule::Detail && digits(&after, end_of(&after, field.0), end_of(&after, field.0) + 6).is_none();
    if field.3 == Rule::Free || unread || !beside || (!rest && (by.unsigned_abs() > near || !named(&field))) {
        return None;
    }
    let (before, after) = (offences(file, line), offences(file, &after));
    let reach = last.max(usize::try_from(last as isize - by).ok()?);
    let mends = after.len() < before.len() && (after.is_empty() || (!rest && after[0] > reach));
    let piece_end = (first..=line.len()).find(|at| column(line, *at) == b' ').map_or(line.len(), |end| end - 1);
    let end = if rest { piece_end } else { last };
    let what =
        text(&columns(line, first, end.min(first + MOST_TOLD - 1))) + if end - first >= MOST_TOLD { ".." } else { "" };
    mends.then_some((after.len(), Moved { first, last: end, by, rest, field, what }))
}

/// Whether a field holds something that is named, and not free text or the line's "%".
fn named(field: &Field) -> bool {
    !matches!(field.3, Rule::Free | Rule::Percent)
}

/// Whether each piece of what was moved now stands in a field, and none in free columns that did not stand there before.
fn lands(file: u32, before: &[u8], after: &[u8], (first, last, rest): (usize, usize, bool), by: isize) -> bool {
    let free = |line: &[u8], at: usize| match field_at(file, line, at) {
        Some(field) => field.3 == Rule::Free,
        None => file == FPLAN && at > 59,
    };
    let moved = pieces(before, first).into_iter().filter(|piece| rest || piece.0 <= last);
    moved.map(|(from, to)| (from, if rest { to } else { to.min(last) })).all(|(from, to)| {
        let [start, end] = [from, to].map(|at| (at as isize - by).max(1) as usize);
        match field_at(file, after, start) {
            Some(field) if field.3 == Rule::Free => free(before, from),
            Some(field) if field.3 == Rule::Name => end <= field.1,
            // nothing else stands there, with which it would become another number
            Some(field) => {
                end <= field.1 && (field.0..=field.1).all(|at| (start..=end).contains(&at) || column(after, at) == b' ')
            }
            None => free(after, start) && free(before, from),
        }
    })
}

/// What a line end has done: that it stands inside a line, or is missing between two.
#[derive(Clone, Copy, Debug, PartialEq, Eq)]
pub enum LineEnd {
    /// This line and the next are one.
    Inside(u32),
    /// Behind this column of this line another begins.
    Missing(u32, usize),
}

impl LineEnd {
    /// What is found.
    pub fn says(self) -> String {
        match self {
            LineEnd::Inside(line) => {
                format!("lines {} and {} together are one good line: a line end stands inside it", line, line + 1)
            }
            LineEnd::Missing(line, after) => {
                format!(
                    "behind column {} of line {} stands a whole line of its own: a line end is missing",
                    after, line
                )
            }
        }
    }

    /// What is to be looked at first.
    pub fn look(self) -> Option<String> {
        match self {
            LineEnd::Inside(_) => None,
            LineEnd::Missing(line, after) => Some(format!(
                "behind column {} of line {} lines may be missing with the line end: then find out which",
                after, line
            )),
        }
    }

    /// What to do.
    pub fn mend(self) -> String {
        match self {
            LineEnd::Inside(line) => format!("join lines {} and {}", line, line + 1),
            LineEnd::Missing(line, after) => format!("break line {} after column {}", line, after),
        }
    }
}

/// Whether a refused line is one with its neighbour, or holds two.
pub fn line_end(of: u32, file: &[u8], at: u32) -> Option<LineEnd> {
    let bytes = line(file, at)?;
    let good = |bytes: &[u8]| (of != FPLAN || kind(bytes) != Kind::Other) && offences(of, bytes).is_empty();
    // Free columns at a line's end would take anything.
    let free = fields(of, bytes).iter().any(|field| field.1 == usize::MAX);
    for first in [at, at.saturating_sub(1)].into_iter().filter(|first| *first > 0 && !free) {
        if let (Some(one), Some(other)) = (line(file, first), line(file, first + 1)) {
            if !good(one) && !good(other) && good(&[one, other].concat()) {
                return Some(LineEnd::Inside(first));
            }
        }
    }
    second(of, bytes).map(|after| LineEnd::Missing(at, after))
}

/// The column behind which a second line stands in a line.
pub fn second(of: u32, bytes: &[u8]) -> Option<usize> {
    let mut bounded = fields(of, bytes).iter().filter(|field| field.1 < usize::MAX);
    let width = bounded.next_back().map(|field| field.1).filter(|last| *last < bytes.len())?;
    let (one, other) = bytes.split_at(width);
    let kinds = of != FPLAN || (kind(one) != Kind::Other && kind(other) != Kind::Other);
    (kinds && offences(of, one).is_empty() && offences(of, other).is_empty()).then_some(width)
}
