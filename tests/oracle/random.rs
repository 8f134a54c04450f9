// A fixed sequence of pseudo-random numbers (xorshift64*).

pub struct Random(u64);

impl Random {
    pub fn new(seed: u64) -> Self {
        Random(seed)
    }

    pub fn next(&mut self) -> u32 {
        self.0 ^= self.0 >> 12;
        self.0 ^= self.0 << 25;
        self.0 ^= self.0 >> 27;
        (self.0.wrapping_mul(0x2545_F491_4F6C_DD1D) >> 32) as u32
    }

    // 64 bits.
    pub fn wide(&mut self) -> u64 {
        (self.next() as u64) << 32 | self.next() as u64
    }

    pub fn below(&mut self, bound: usize) -> usize {
        (self.next() as u64 * bound as u64 >> 32) as usize
    }

    pub fn one_of<T: Copy>(&mut self, from: &[T]) -> T {
        from[self.below(from.len())]
    }
}
