//! Arithmetic on the operating days of a table.

use std::ops::{BitAnd, BitOr, Not, Sub};
use std::ptr;

use super::ask::{answered, Table};
use crate::layout::BIT_WORDS;
use crate::raw;
use crate::refusal::Refusal;
use crate::version::compared;

/// Bits of a bit field, and those of its frame.
const BITS: u32 = 32 * BIT_WORDS as u32;
const FRAME_BITS: u32 = 4;

/// A set of operating days of one table: a bit field with the frame of that table's period. It borrows its table, and every
/// operation is inside that table's period.
///
/// `a | b` has the days of either, `a & b` those of both, `a - b` those of `a` that `b` has not, and `!a` the other days of
/// the period; the result is again a bit field of the table.
///
/// # Panics
///
/// `|`, `&` and `-` if the two are of different tables, whose periods may differ; and all as [`load`](crate::by_number::load) does.
#[derive(Clone, Copy, Debug)]
pub struct BitField<'a> {
    table: Table<'a>,
    words: [u32; BIT_WORDS],
}

impl<'a> Table<'a> {
    /// The bit field of this number; 0 is each day of the period.
    ///
    /// # Errors
    ///
    /// It is refused with [`Refusal::NoSuchBitField`] where the table lists no such number, and with
    /// [`Refusal::NotAField`] where its frame is wrong, which the table of an accepted delivery has nowhere.
    pub fn bit_field(self, number: u32) -> Result<BitField<'a>, Refusal> {
        if number == 0 {
            return self.bit_field_from(&each_day(self.period_days()));
        }
        let words = self.bit_field_words(number).ok_or(Refusal::NoSuchBitField)?;
        self.bit_field_from(words)
    }

    /// Words from elsewhere as a bit field of this table. Whether they were meant for its period, nobody can see.
    ///
    /// # Errors
    ///
    /// [`Refusal::NotAField`] unless they are twelve with the frame of its period.
    pub fn bit_field_from(self, words: &[u32]) -> Result<BitField<'a>, Refusal> {
        // Every field comes through here, so that arithmetic need not look again.
        compared();
        // SAFETY: pointer and length are those of a slice.
        let answer = unsafe { raw::estelunya_days_count(self.period_days(), words.as_ptr(), words.len()) };
        answered(answer.number, 0, ())?;
        let mut own = [0; BIT_WORDS];
        own.copy_from_slice(words);
        Ok(BitField { table: self, words: own })
    }
}

impl<'a> BitField<'a> {
    /// The twelve words, bit 0 the highest of the first; bit d + 2 is day d of the period.
    pub fn words(self) -> [u32; BIT_WORDS] {
        self.words
    }

    /// How many days it has.
    pub fn day_count(self) -> u32 {
        // SAFETY: pointer and length are those of an array.
        let answer =
            unsafe { raw::estelunya_days_count(self.table.period_days(), self.words.as_ptr(), self.words.len()) };
        assert_eq!(answer.number, 0, "the archive refused a bit field of the table");
        answer.days
    }

    fn is_of(self, table: Table<'_>) -> bool {
        ptr::eq(self.table.words(), table.words())
    }

    fn combined(self, other: BitField<'a>, function: Combine) -> BitField<'a> {
        assert!(self.is_of(other.table), "bit fields of two tables");
        let (first, second, mut words) = (self.words, other.words, [0; BIT_WORDS]);
        // SAFETY: pointers and lengths are those of three arrays.
        let answer = unsafe {
            function(
                self.table.period_days(),
                first.as_ptr(),
                first.len(),
                second.as_ptr(),
                second.len(),
                words.as_mut_ptr(),
                words.len(),
            )
        };
        self.given(answer, words)
    }

    fn given(self, answer: raw::DaySetResult, words: [u32; BIT_WORDS]) -> BitField<'a> {
        assert_eq!(answer.number, 0, "the archive refused a bit field of the table");
        BitField { table: self.table, words }
    }
}

/// n; the first field, the second and the result, each with its length.
type Combine = unsafe extern "C" fn(u32, *const u32, usize, *const u32, usize, *mut u32, usize) -> raw::DaySetResult;

impl<'a> BitOr for BitField<'a> {
    type Output = BitField<'a>;

    fn bitor(self, other: BitField<'a>) -> BitField<'a> {
        self.combined(other, raw::estelunya_days_union)
    }
}

impl<'a> BitAnd for BitField<'a> {
    type Output = BitField<'a>;

    fn bitand(self, other: BitField<'a>) -> BitField<'a> {
        self.combined(other, raw::estelunya_days_intersection)
    }
}

impl<'a> Sub for BitField<'a> {
    type Output = BitField<'a>;

    fn sub(self, other: BitField<'a>) -> BitField<'a> {
        self.combined(other, raw::estelunya_days_difference)
    }
}

impl<'a> Not for BitField<'a> {
    type Output = BitField<'a>;

    fn not(self) -> BitField<'a> {
        let (field, mut words) = (self.words, [0; BIT_WORDS]);
        // SAFETY: pointers and lengths are those of two arrays.
        let answer = unsafe {
            raw::estelunya_days_complement(
                self.table.period_days(),
                field.as_ptr(),
                field.len(),
                words.as_mut_ptr(),
                words.len(),
            )
        };
        self.given(answer, words)
    }
}

/// The same days of the same table.
impl PartialEq for BitField<'_> {
    fn eq(&self, other: &Self) -> bool {
        self.is_of(other.table) && self.words == other.words
    }
}

impl Eq for BitField<'_> {}

/// A frame of n days with each day in it: its first n + 4 bits are 1.
fn each_day(n: u32) -> [u32; BIT_WORDS] {
    let ones = n.saturating_add(FRAME_BITS).min(BITS);
    let mut words = [0; BIT_WORDS];
    for k in 0..ones {
        words[(k / 32) as usize] |= 0x8000_0000 >> (k % 32);
    }
    words
}
