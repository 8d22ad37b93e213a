//! A small generator of random numbers with a fixed seed (splitmix64).

/// Amounts at the ends of their ranges.
pub const EXTREMES: [i32; 8] = [
    i32::MIN,
    i32::MIN + 1,
    -32_769,
    -1,
    0,
    32_768,
    i32::MAX - 1,
    i32::MAX,
];

pub struct Random(u64);

impl Random {
    pub fn new(seed: u64) -> Random {
        Random(seed)
    }

    pub fn draw(&mut self) -> u64 {
        self.0 = self.0.wrapping_add(0x9E37_79B9_7F4A_7C15);
        let mut z = self.0;
        z = (z ^ (z >> 30)).wrapping_mul(0xBF58_476D_1CE4_E5B9);
        z = (z ^ (z >> 27)).wrapping_mul(0x94D0_49BB_1331_11EB);
        z ^ (z >> 31)
    }

    /// A number from 0 to limit less 1; 0 if the limit is 0.
    pub fn below(&mut self, limit: usize) -> usize {
        (self.draw() % limit.max(1) as u64) as usize
    }

    /// A number from low to high, both included.
    pub fn between(&mut self, low: usize, high: usize) -> usize {
        low + self.below(high - low + 1)
    }

    /// True in about this many of a hundred draws.
    pub fn percent(&mut self, of_hundred: usize) -> bool {
        self.below(100) < of_hundred
    }

    /// One of a list that is not empty.
    pub fn pick<T: Copy>(&mut self, list: &[T]) -> T {
        list[self.below(list.len())]
    }

    /// An amount: small, any, or extreme.
    pub fn amount(&mut self) -> i32 {
        match self.below(4) {
            0 => self.draw() as i32,
            1 => self.pick(&EXTREMES),
            _ => self.below(7) as i32 - 3,
        }
    }

    pub fn bytes(&mut self, length: usize) -> Vec<u8> {
        (0..length).map(|_| self.draw() as u8).collect()
    }
}
