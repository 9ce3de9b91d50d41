//! A small generator of random numbers (xorshift64*), so that a seed gives the same run everywhere.

pub struct Random(u64);

impl Random {
    /// Begins with a fixed seed, and prints it.
    pub fn seeded(what: &str, seed: u64) -> Self {
        println!("{what}: seed {seed}");
        Self(seed)
    }

    pub fn next(&mut self) -> u64 {
        self.0 ^= self.0 >> 12;
        self.0 ^= self.0 << 25;
        self.0 ^= self.0 >> 27;
        self.0.wrapping_mul(0x2545_f491_4f6c_dd1d)
    }

    /// A number below `bound`.
    pub fn below(&mut self, bound: u64) -> u64 {
        ((u128::from(self.next()) * u128::from(bound)) >> 64) as u64
    }

    #[allow(dead_code)] // not every test that has this file asks for it
    pub fn chance(&mut self, one_in: u64) -> bool {
        self.below(one_in) == 0
    }

    /// A number of so many bits: often small, sometimes at an edge.
    pub fn number(&mut self, bits: u32) -> u64 {
        const EDGES: [u64; 8] = [255, 256, 65_535, 65_536, 65_537, 1_048_576, 1_048_577, u32::MAX as u64];
        let most = u64::MAX >> (64 - bits);
        match self.below(10) {
            0 => most,
            1 => most - 1,
            2 => self.next() & most,
            3 | 4 => EDGES[self.below(8) as usize] & most,
            _ => self.below(6),
        }
    }
}
