//! The random numbers: splitmix64. Equal seeds give equal numbers, everywhere.

pub struct Random(u64);

impl Random {
    /// The numbers of one part, `number`, of a seed.
    pub fn new(seed: u64, number: u64) -> Random {
        let mut start = Random(seed ^ 0x5368_7269_6b65_6d75);
        let salt = start.bits();
        let mut random = Random(salt ^ number.wrapping_mul(0xd134_2543_de82_ef95));
        random.bits();
        random
    }

    /// 64 bits, each as likely set as not.
    pub fn bits(&mut self) -> u64 {
        self.0 = self.0.wrapping_add(0x9e37_79b9_7f4a_7c15);
        let mut z = self.0;
        z = (z ^ (z >> 30)).wrapping_mul(0xbf58_476d_1ce4_e5b9);
        z = (z ^ (z >> 27)).wrapping_mul(0x94d0_49bb_1331_11eb);
        z ^ (z >> 31)
    }

    /// A number below `limit`; 0 if there is none.
    pub fn below(&mut self, limit: usize) -> usize {
        match limit {
            0 => 0,
            _ => (self.bits() % limit as u64) as usize,
        }
    }

    /// A number from `low` to `high`, both included.
    pub fn within(&mut self, low: usize, high: usize) -> usize {
        low + self.below(high - low + 1)
    }

    /// True `percent` times in a hundred.
    pub fn chance(&mut self, percent: usize) -> bool {
        self.below(100) < percent
    }

    pub fn pick<'a, T>(&mut self, from: &'a [T]) -> &'a T {
        &from[self.below(from.len())]
    }

    /// A number of 16 bits: small, at a boundary, or any.
    pub fn short(&mut self) -> u16 {
        match self.below(6) {
            0 | 1 => self.below(8) as u16,
            2 => *self.pick(&[0, 1, 47, 48, 62, 63, 64, 65, 127, 128, 255, 256]),
            3 => *self.pick(&[2_047, 2_048, 16_383, 32_767, 32_768, 65_534, 65_535]),
            _ => self.below(65_536) as u16,
        }
    }
}
