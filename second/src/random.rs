//! A small deterministic generator for tests and scripts.

/// splitmix64: the same seed gives the same draws.
#[derive(Clone, Debug)]
pub struct Random {
    state: u64,
}

impl Random {
    pub fn new(seed: u64) -> Random {
        Random { state: seed }
    }

    /// The next 64 bits.
    pub fn next_u64(&mut self) -> u64 {
        self.state = self.state.wrapping_add(0x9E37_79B9_7F4A_7C15);
        let mut z = self.state;
        z = (z ^ (z >> 30)).wrapping_mul(0xBF58_476D_1CE4_E5B9);
        z = (z ^ (z >> 27)).wrapping_mul(0x94D0_49BB_1331_11EB);
        z ^ (z >> 31)
    }

    /// A number below `bound`, which is positive.
    pub fn below(&mut self, bound: u64) -> u64 {
        self.next_u64() % bound
    }

    /// A byte below `bound`, which is positive.
    pub fn byte_below(&mut self, bound: u8) -> u8 {
        self.below(u64::from(bound)) as u8
    }

    /// `count` bytes, each below `bound`.
    pub fn bytes_below(&mut self, bound: u8, count: usize) -> Vec<u8> {
        (0..count).map(|_| self.byte_below(bound)).collect()
    }

    /// One of the items.
    pub fn pick<T: Copy>(&mut self, items: &[T]) -> T {
        items[self.below(items.len() as u64) as usize]
    }
}
