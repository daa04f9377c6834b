//! A small deterministic source of numbers (splitmix64): the same seed gives the same case on every machine.

pub struct Rng(u64);

impl Rng {
    pub fn new(seed: u64) -> Rng {
        Rng(seed)
    }

    pub fn next(&mut self) -> u64 {
        self.0 = self.0.wrapping_add(0x9e37_79b9_7f4a_7c15);
        let mut z = self.0;
        z = (z ^ z >> 30).wrapping_mul(0xbf58_476d_1ce4_e5b9);
        z = (z ^ z >> 27).wrapping_mul(0x94d0_49bb_1331_11eb);
        z ^ z >> 31
    }

    /// 0 to n − 1
    pub fn below(&mut self, n: u64) -> u64 {
        self.next() % n
    }

    /// low to high, both included
    pub fn between(&mut self, low: i64, high: i64) -> i64 {
        low + self.below((high - low) as u64 + 1) as i64
    }

    /// low to high, both included, each order of magnitude as likely as the next
    pub fn scaled(&mut self, low: i64, high: i64) -> i64 {
        assert!(1 <= low && low <= high);
        let part = self.below(1 << 20) as f64 / (1 << 20) as f64;
        let number = (low as f64 * (high as f64 / low as f64).powf(part)) as i64;
        number.clamp(low, high)
    }

    /// true in so many of 100 cases
    pub fn percent(&mut self, chance: u64) -> bool {
        self.below(100) < chance
    }

    pub fn pick<T: Copy>(&mut self, list: &[T]) -> T {
        list[self.below(list.len() as u64) as usize]
    }
}
