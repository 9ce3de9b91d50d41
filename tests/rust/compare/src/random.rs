//! A small generator of random numbers (xorshift64*), so that a seed gives the same run everywhere.

pub struct Random(u64);

impl Random {
    /// The state may be any number but 0.
    pub fn new(seed: u64) -> Self {
        Self(if seed == 0 { 1 } else { seed })
    }

    pub fn next(&mut self) -> u64 {
        self.0 ^= self.0 >> 12;
        self.0 ^= self.0 << 25;
        self.0 ^= self.0 >> 27;
        self.0.wrapping_mul(0x2545_f491_4f6c_dd1d)
    }

    pub fn u16(&mut self) -> u16 {
        (self.next() >> 48) as u16
    }

    pub fn u8(&mut self) -> u8 {
        (self.next() >> 56) as u8
    }

    /// A number below `bound`.
    pub fn below(&mut self, bound: usize) -> usize {
        ((self.next() >> 32) as usize * bound) >> 32
    }
}
