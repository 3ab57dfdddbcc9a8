//! Pseudo-random numbers, the same at each run.

// Each test uses its own part.
#![allow(dead_code)]

pub struct Xorshift {
    pub state: u64,
}

impl Xorshift {
    pub fn seeded(seed: u64) -> Self {
        // A state of 0 would stay 0.
        let state = seed.wrapping_add(1).wrapping_mul(0x9E37_79B9_7F4A_7C15) | 1;
        Xorshift { state }
    }

    pub fn next(&mut self) -> u64 {
        self.state ^= self.state << 13;
        self.state ^= self.state >> 7;
        self.state ^= self.state << 17;
        self.state
    }

    pub fn below(&mut self, limit: u64) -> u64 {
        self.next() % limit
    }

    /// A number of at most so many bits, each width equally likely.
    pub fn up_to_bits(&mut self, widest: u64) -> u64 {
        let width = self.below(widest + 1);
        self.next() & ((1 << width) - 1)
    }
}
