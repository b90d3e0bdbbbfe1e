//! A splitmix64 generator: the same seed gives the same deliveries everywhere.

#[derive(Clone, Debug)]
pub struct Rng(u64);

impl Rng {
    pub fn new(seed: u64) -> Rng {
        Rng(seed)
    }

    pub fn draw(&mut self) -> u64 {
        self.0 = self.0.wrapping_add(0x9E37_79B9_7F4A_7C15);
        let mut z = self.0;
        z = (z ^ (z >> 30)).wrapping_mul(0xBF58_476D_1CE4_E5B9);
        z = (z ^ (z >> 27)).wrapping_mul(0x94D0_49BB_1331_11EB);
        z ^ (z >> 31)
    }

    /// A number below n, which is at least 1.
    pub fn below(&mut self, n: u32) -> u32 {
        (((self.draw() >> 32) * u64::from(n)) >> 32) as u32
    }

    /// A number from a to b, both inside.
    pub fn between(&mut self, a: u32, b: u32) -> u32 {
        a + self.below(b - a + 1)
    }

    /// An index of something with that many items.
    pub fn index(&mut self, items: usize) -> usize {
        self.below(items as u32) as usize
    }

    /// True once in so many times.
    pub fn once_in(&mut self, times: u32) -> bool {
        self.below(times) == 0
    }

    pub fn coin(&mut self) -> bool {
        self.once_in(2)
    }

    pub fn pick<T: Copy>(&mut self, items: &[T]) -> T {
        items[self.index(items.len())]
    }

    pub fn shuffle<T>(&mut self, items: &mut [T]) {
        for i in (1..items.len()).rev() {
            items.swap(i, self.index(i + 1));
        }
    }

    /// Bytes of all sorts, never LF, CR, "%" or (unless asked for) a blank.
    pub fn byte(&mut self, blank: bool) -> u8 {
        const POOL: &[u8] = b"ABCXYZabcxyz0123456789#-+*./_\t\"\\\x00\x7f\x80\xc3\xa4\xff";
        if blank && self.once_in(5) {
            b' '
        } else {
            self.pick(POOL)
        }
    }

    /// So many bytes, blanks among them.
    pub fn text(&mut self, length: usize) -> Vec<u8> {
        (0..length).map(|_| self.byte(true)).collect()
    }
}
