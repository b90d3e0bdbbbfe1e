//! ECKDATEN: the period.

use crate::calendar::date_in;
use crate::lines::{lines, Line};
use crate::refusal::{number, Offence};

const MOST_DAYS: u32 = 380;

/// "A period of n days has 1 to 380."
#[derive(Clone, Copy, Debug)]
pub struct Period {
    pub first_day: u32,
    pub days: u32,
}

/// "lines 1, 2: 1-10 DD.MM.YYYY, rest free; line 3 free; exactly three lines". No line is skipped.
pub fn read(file: &[u8]) -> Result<Period, Offence> {
    let mut lines = lines(file);
    let first_day = day_on(&next(&mut lines, 1)?)?;
    let line = next(&mut lines, 2)?;
    let days = days_to(first_day, day_on(&line)?).ok_or_else(|| line.offence(number::DATE))?;
    next(&mut lines, 3)?;
    match lines.next() {
        Some(fourth) => Err(fourth.offence(number::FOURTH_LINE)),
        None => Ok(Period { first_day, days }),
    }
}

fn next<'a>(lines: &mut impl Iterator<Item = Line<'a>>, number: u32) -> Result<Line<'a>, Offence> {
    lines.next().ok_or_else(|| Offence::at(number, number::LINE_MISSING))
}

fn day_on(line: &Line<'_>) -> Result<u32, Offence> {
    let date = line.formed(date_in(line))?;
    date.day_number().ok_or_else(|| line.offence(number::DATE))
}

/// The days of a period, unless it ends before its start or has too many.
fn days_to(first: u32, last: u32) -> Option<u32> {
    let days = (last + 1).checked_sub(first)?;
    Some(days).filter(|days| (1..=MOST_DAYS).contains(days))
}
