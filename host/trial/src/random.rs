//! Random numbers that are the same on every run (xorshift with a product).

pub struct Random(u64);

impl Random {
    pub fn new(seed: u64) -> Random {
        Random(seed.wrapping_mul(0x9e37_79b9_7f4a_7c15) | 1)
    }

    pub fn word(&mut self) -> u64 {
        self.0 ^= self.0 >> 12;
        self.0 ^= self.0 << 25;
        self.0 ^= self.0 >> 27;
        self.0.wrapping_mul(0x2545_f491_4f6c_dd1d)
    }

    /// Below the bound, which is above 0.
    pub fn below(&mut self, bound: usize) -> usize {
        (((self.word() >> 32) * bound as u64) >> 32) as usize
    }

    /// From -size to size.
    pub fn around(&mut self, size: usize) -> i32 {
        self.below(2 * size + 1) as i32 - size as i32
    }

    pub fn one_in(&mut self, many: usize) -> bool {
        self.below(many) == 0
    }

    pub fn pick<T: Copy>(&mut self, among: &[T]) -> T {
        among[self.below(among.len())]
    }

    pub fn octets(&mut self, count: usize) -> Vec<u8> {
        (0..count).map(|_| self.word() as u8).collect()
    }

    /// About normal with this standard deviation: a sum of eight bytes has mean 1020 and deviation 209.
    pub fn noise(&mut self, strength: i32) -> i32 {
        let sum: i32 = self.word().to_le_bytes().into_iter().map(i32::from).sum();
        (sum - 1020) * strength / 209
    }
}
