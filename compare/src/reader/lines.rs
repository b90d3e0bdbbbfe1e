//! "Lines and fields": how a file falls into lines.

/// A line inside its file: its number from 1, the byte where it starts, and its bytes without the line end.
#[derive(Clone, Copy, Debug, PartialEq, Eq)]
pub struct Line<'a> {
    pub no: u32,
    pub start: usize,
    pub text: &'a [u8],
}

/// "A file is cut at each LF; an empty last piece is no line; one CR at a line's end is dropped."
/// Open point: a last piece that is one CR is not empty, so it is a line.
pub fn lines(file: &[u8]) -> Vec<Line<'_>> {
    let mut pieces: Vec<&[u8]> = file.split(|byte| *byte == b'\n').collect();
    if pieces.last().map_or(false, |piece| piece.is_empty()) {
        pieces.pop();
    }
    let mut start = 0;
    let mut found = Vec::with_capacity(pieces.len());
    for (before, piece) in pieces.iter().enumerate() {
        // "Lines count from 1"
        found.push(Line { no: before as u32 + 1, start, text: without_cr(piece) });
        start += piece.len() + 1;
    }
    found
}

/// "one CR at a line's end is dropped": a second one stays.
fn without_cr(piece: &[u8]) -> &[u8] {
    match piece {
        [text @ .., b'\r'] => text,
        text => text,
    }
}

/// "Except in ECKDATEN, a line that is all blank or starts with "%" is skipped but counted." An empty line is all blank.
pub fn skipped(text: &[u8]) -> bool {
    text.first() == Some(&b'%') || text.iter().all(|byte| *byte == b' ')
}
