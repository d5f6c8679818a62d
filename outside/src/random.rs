//! A small random source (splitmix64) that is repeated from its seed.

pub struct Random(pub u64);

impl Random {
    pub fn word(&mut self) -> u64 {
        self.0 = self.0.wrapping_add(0x9E37_79B9_7F4A_7C15);
        let mut z = self.0;
        z = (z ^ (z >> 30)).wrapping_mul(0xBF58_476D_1CE4_E5B9);
        z = (z ^ (z >> 27)).wrapping_mul(0x94D0_49BB_1331_11EB);
        z ^ (z >> 31)
    }

    pub fn below(&mut self, n: usize) -> usize {
        (self.word() % n as u64) as usize
    }

    /// True once in n times.
    pub fn once_in(&mut self, n: usize) -> bool {
        self.below(n) == 0
    }

    pub fn bytes(&mut self, length: usize) -> Vec<u8> {
        (0..length).map(|_| self.word() as u8).collect()
    }

    pub fn array<const N: usize>(&mut self) -> [u8; N] {
        std::array::from_fn(|_| self.word() as u8)
    }
}

/// How many times over the comparisons run: the number in OUTSIDE_TIMES, or 1.
pub fn times() -> usize {
    std::env::var("OUTSIDE_TIMES").ok().and_then(|n| n.parse().ok()).unwrap_or(1)
}

/// The seed of a comparison: its own number, moved by OUTSIDE_SEED where that is set.
pub fn seed(own: u64) -> u64 {
    let moved: u64 = std::env::var("OUTSIDE_SEED").ok().and_then(|n| n.parse().ok()).unwrap_or(0);
    own.wrapping_add(moved.wrapping_mul(1_000_003))
}
