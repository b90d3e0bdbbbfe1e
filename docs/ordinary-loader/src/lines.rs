//! Files cut into lines, and lines into columns.

use crate::refusal::{number, Offence};

/// A line of a file, without its line end.
#[derive(Clone, Copy, Debug)]
pub struct Line<'a> {
    /// Counted from 1.
    pub number: u32,
    /// The byte of the file at which it starts, from 0.
    pub start: usize,
    pub text: &'a [u8],
}

/// A field or unnamed column that breaks the form of its line: the column where it starts.
#[derive(Clone, Copy, Debug, PartialEq, Eq)]
pub struct Broken(pub usize);

/// "A file is cut at each LF; an empty last piece is no line; one CR at a line's end is dropped."
pub fn lines(file: &[u8]) -> impl Iterator<Item = Line<'_>> {
    let mut next = 0;
    file.split_inclusive(|byte| *byte == b'\n').zip(1..).map(move |(piece, number)| {
        let start = next;
        next += piece.len();
        let text = piece.strip_suffix(b"\n").unwrap_or(piece);
        Line { number, start, text: text.strip_suffix(b"\r").unwrap_or(text) }
    })
}

/// The lines of a file that are not skipped; ECKDATEN skips none.
pub fn records(file: &[u8]) -> impl Iterator<Item = Line<'_>> {
    lines(file).filter(|line| !line.is_skipped())
}

impl<'a> Line<'a> {
    /// "a line that is all blank or starts with "%" is skipped but counted"
    pub fn is_skipped(&self) -> bool {
        self.text.first() == Some(&b'%') || is_blank(self.text)
    }

    /// Columns `first` to `last`, counted from 1, as far as the line reaches; what is missing reads as blank.
    pub fn columns(&self, first: usize, last: usize) -> &'a [u8] {
        let end = last.min(self.text.len());
        &self.text[end.min(first - 1)..end]
    }

    /// An offence of this line.
    pub fn offence(&self, number: u32) -> Offence {
        Offence::at(self.number, number)
    }

    /// What was read of this line's form, or refusal 4.
    pub fn formed<T>(&self, read: Result<T, Broken>) -> Result<T, Offence> {
        read.map_err(|Broken(column)| Offence { column: column as u32, ..self.offence(number::FORM) })
    }
}

pub fn is_blank(text: &[u8]) -> bool {
    text.iter().all(|byte| *byte == b' ')
}
