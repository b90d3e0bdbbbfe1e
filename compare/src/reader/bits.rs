//! "A bit field is twelve words held together as one value, bit 0 the highest of the first word."

pub type BitWords = [u32; 12];

/// Bits in a bit field: 96 hex digits.
pub const BITS: u32 = 384;

/// Bit k, counted from the high bit of the first word; past the last bit it is 0.
pub fn bit(words: &BitWords, k: u32) -> bool {
    k < BITS && words[(k / 32) as usize] & (0x8000_0000 >> (k % 32)) != 0
}

/// "bits 0 and 1 are 1, bit d+2 is day d, bits n+2 and n+3 are 1, the rest 0."
pub fn frame_ok(words: &BitWords, n: u32) -> bool {
    (0..BITS).all(|k| {
        let day_bit = k >= 2 && k - 2 < n;
        let frame_bit = k < 2 || k - 2 == n || (k > 2 && k - 3 == n);
        day_bit || bit(words, k) == frame_bit
    })
}

/// "bit d+2 is day d"
pub fn runs_on(words: &BitWords, d: u32) -> bool {
    bit(words, d.saturating_add(2))
}
