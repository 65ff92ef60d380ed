//! A small generator with a fixed seed: the cases are the same at every run.

pub struct Random(u64);

impl Random {
    pub fn new(seed: u64) -> Random {
        Random(seed)
    }

    /// splitmix64.
    fn next(&mut self) -> u64 {
        self.0 = self.0.wrapping_add(0x9e37_79b9_7f4a_7c15);
        let mut z = self.0;
        z = (z ^ (z >> 30)).wrapping_mul(0xbf58_476d_1ce4_e5b9);
        z = (z ^ (z >> 27)).wrapping_mul(0x94d0_49bb_1331_11eb);
        z ^ (z >> 31)
    }

    /// A number from `low` to `high`.
    pub fn from(&mut self, low: u64, high: u64) -> u64 {
        low + self.next() % (high - low + 1)
    }

    pub fn number(&mut self, low: u16, high: u16) -> u16 {
        self.from(low as u64, high as u64) as u16
    }

    /// A number from `low` to `high`, often one of the two.
    pub fn edged(&mut self, low: u16, high: u16) -> u16 {
        match self.from(0, 9) {
            0 => low,
            1 => high,
            _ => self.number(low, high),
        }
    }

    pub fn percent(&mut self, chance: u64) -> bool {
        self.from(1, 100) <= chance
    }

    pub fn pick<T: Clone>(&mut self, of: &[T]) -> T {
        of[self.from(0, of.len() as u64 - 1) as usize].clone()
    }
}
