//! Bit fields: 384 bits, "bit 0 the highest of the first word".

use crate::lines::{Broken, Line};

const WORDS: usize = 12;
const BITS: u32 = 384;

/// Bits of a line of BITFELD, or days with their frame.
#[derive(Clone, Copy, Debug, PartialEq, Eq)]
pub struct Bits(pub [u32; WORDS]);

/// Columns 8-103, hex digits.
pub fn bits_in(line: &Line<'_>) -> Result<Bits, Broken> {
    let digits = line.columns(8, 103);
    if digits.len() < 8 * WORDS {
        return Err(Broken(8));
    }
    let mut bits = [0; WORDS];
    for (word, digits) in bits.iter_mut().zip(digits.chunks(8)) {
        for digit in digits {
            *word = *word << 4 | hex(*digit).ok_or(Broken(8))?;
        }
    }
    Ok(Bits(bits))
}

fn hex(digit: u8) -> Option<u32> {
    match digit {
        b'0'..=b'9' => Some(u32::from(digit - b'0')),
        b'A'..=b'F' => Some(u32::from(digit - b'A') + 10),
        _ => None,
    }
}

impl Bits {
    pub const NONE: Bits = Bits([0; WORDS]);

    /// Every day of a period of so many days, in its frame.
    pub fn daily(days: u32) -> Bits {
        let mut all = Bits::NONE;
        (0..days + 4).for_each(|bit| all.set(bit));
        all
    }

    /// "bits 0 and 1 are 1, bit d+2 is day d, bits n+2 and n+3 are 1, the rest 0"
    pub fn is_framed(&self, days: u32) -> bool {
        [0, 1, days + 2, days + 3].iter().all(|bit| self.has(*bit)) && (days + 4..BITS).all(|bit| !self.has(bit))
    }

    pub fn or(&self, other: &Bits) -> Bits {
        self.by_words(other, |a, b| a | b)
    }

    pub fn and(&self, other: &Bits) -> Bits {
        self.by_words(other, |a, b| a & b)
    }

    pub fn without(&self, other: &Bits) -> Bits {
        self.by_words(other, |a, b| a & !b)
    }

    fn by_words(&self, other: &Bits, word: impl Fn(u32, u32) -> u32) -> Bits {
        let mut all = *self;
        for (a, b) in all.0.iter_mut().zip(&other.0) {
            *a = word(*a, *b);
        }
        all
    }

    pub fn has(&self, bit: u32) -> bool {
        self.0[bit as usize / 32] & mask(bit) != 0
    }

    fn set(&mut self, bit: u32) {
        self.0[bit as usize / 32] |= mask(bit);
    }
}

fn mask(bit: u32) -> u32 {
    1 << (31 - bit % 32)
}
