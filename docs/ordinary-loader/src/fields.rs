//! The fields of a line by their columns. A form is read from left to right, so that what breaks it first is the leftmost.

use crate::lines::{is_blank, Broken, Line};

/// A time of a call: "its value is 60 times HHH plus MM", and whether a "-" forbids alighting or boarding.
#[derive(Clone, Copy, Debug, PartialEq, Eq)]
pub struct Time {
    pub minutes: u32,
    pub forbids: bool,
}

/// One end of a range, as its line says it.
#[derive(Clone, Copy, Debug, PartialEq, Eq)]
pub enum End {
    /// Blank: the first or last call.
    Outer,
    /// "#" and digits: a route index from 0.
    Index(u32),
    /// Seven digits, and which of the stop's appearances.
    Stop(u32, Which),
}

/// Which appearance of a stop a detail says.
#[derive(Clone, Copy, Debug, PartialEq, Eq)]
pub enum Which {
    /// Blank: the first for *from*, the last for *to*.
    Outer,
    /// "#" and digits: that appearance, from 0.
    Appearance(u32),
    /// A time: the one with that departure (*from*) or arrival (*to*), in minutes.
    At(u32),
}

impl<'a> Line<'a> {
    /// "Columns named by no field are blank."
    pub fn unnamed(&self, first: usize, last: usize) -> Result<(), Broken> {
        match self.columns(first, last).iter().position(|byte| *byte != b' ') {
            Some(at) => Err(Broken(first + at)),
            None => Ok(()),
        }
    }

    /// "*Digits*: digits only."
    pub fn digits(&self, first: usize, last: usize) -> Result<u32, Broken> {
        let field = self.columns(first, last);
        let whole = field.len() == last + 1 - first;
        number(field).filter(|_| whole).ok_or(Broken(first))
    }

    /// Digits, or all blank.
    pub fn digits_or_blank(&self, first: usize, last: usize) -> Result<Option<u32>, Broken> {
        if is_blank(self.columns(first, last)) {
            return Ok(None);
        }
        self.digits(first, last).map(Some)
    }

    /// "*Count*: any blanks, then at least one digit, to the field's end", and not over `most`.
    pub fn count(&self, first: usize, last: usize, most: u32) -> Result<u32, Broken> {
        let blanks = self.columns(first, last).iter().take_while(|byte| **byte == b' ').count();
        if first + blanks > last {
            return Err(Broken(first));
        }
        self.digits(first + blanks, last).ok().filter(|count| *count <= most).ok_or(Broken(first))
    }

    /// Bytes of which the first is not blank.
    pub fn code(&self, first: usize, last: usize) -> Result<&'a [u8], Broken> {
        match self.columns(first, last) {
            code if code.first().map_or(true, |byte| *byte == b' ') => Err(Broken(first)),
            code => Ok(code),
        }
    }

    /// One byte, in a column that may hold only these.
    pub fn one_of(&self, column: usize, bytes: &[u8]) -> Result<u8, Broken> {
        let byte = self.text.get(column - 1).copied().unwrap_or(b' ');
        Some(byte).filter(|byte| bytes.contains(byte)).ok_or(Broken(column))
    }

    /// Bytes of which none is blank.
    pub fn no_blanks(&self, first: usize, last: usize) -> Result<&'a [u8], Broken> {
        let field = self.columns(first, last);
        if field.len() == last + 1 - first && !field.contains(&b' ') {
            Ok(field)
        } else {
            Err(Broken(first))
        }
    }

    /// "A time is blank, or a blank or "-" and five digits HHHMM with MM at most 59."
    pub fn time(&self, first: usize, last: usize) -> Result<Option<Time>, Broken> {
        let field = self.columns(first, last);
        if is_blank(field) {
            return Ok(None);
        }
        time_of(field).map(Some).ok_or(Broken(first))
    }

    /// A range end without its detail: a stop has `Which::Outer`.
    pub fn end(&self, first: usize, last: usize) -> Result<End, Broken> {
        let field = self.columns(first, last);
        if is_blank(field) {
            return Ok(End::Outer);
        }
        if let Some(index) = hash_number(field) {
            return Ok(End::Index(index));
        }
        self.digits(first, last).map(|stop| End::Stop(stop, Which::Outer))
    }

    /// A range end with its detail; "with no stop number it is not read and may hold anything".
    pub fn detailed(&self, end: End, first: usize, last: usize) -> Result<End, Broken> {
        match end {
            End::Stop(stop, _) => Ok(End::Stop(stop, self.detail(first, last)?)),
            _ => Ok(end),
        }
    }

    fn detail(&self, first: usize, last: usize) -> Result<Which, Broken> {
        let field = self.columns(first, last);
        if is_blank(field) {
            return Ok(Which::Outer);
        }
        if let Some(appearance) = hash_number(field) {
            return Ok(Which::Appearance(appearance));
        }
        time_of(field).map(|time| Which::At(time.minutes)).ok_or(Broken(first))
    }

    /// "In FPLAN column 59 is "%" and anything may follow."
    pub fn percent(&self) -> Result<(), Broken> {
        match self.text.get(58) {
            Some(b'%') => Ok(()),
            _ => Err(Broken(59)),
        }
    }
}

/// The number that these bytes are in digits. Seven digits at most are asked for, so that it fits.
fn number(digits: &[u8]) -> Option<u32> {
    digits.iter().try_fold(0, |number, byte| match byte {
        b'0'..=b'9' => Some(10 * number + u32::from(byte - b'0')),
        _ => None,
    })
}

/// A time of six bytes that is not blank.
fn time_of(field: &[u8]) -> Option<Time> {
    match field {
        [sign @ (b' ' | b'-'), digits @ ..] if digits.len() == 5 => {
            let (hours, minutes) = (number(&digits[..3])?, number(&digits[3..])?);
            let forbids = *sign == b'-';
            Some(Time { minutes: 60 * hours + minutes, forbids }).filter(|_| minutes <= 59)
        }
        _ => None,
    }
}

/// ""#" and digits with blanks around"; ""#" always needs a digit".
fn hash_number(field: &[u8]) -> Option<u32> {
    let digits = trimmed(field).strip_prefix(b"#")?;
    if digits.is_empty() {
        return None;
    }
    number(digits)
}

/// Without blanks at both ends.
fn trimmed(field: &[u8]) -> &[u8] {
    let start = field.iter().take_while(|byte| **byte == b' ').count();
    without_trailing_blanks(&field[start..])
}

pub fn without_trailing_blanks(field: &[u8]) -> &[u8] {
    let blanks = field.iter().rev().take_while(|byte| **byte == b' ').count();
    &field[..field.len() - blanks]
}
