//! XTEA with 32 cycles, big-endian.
const DELTA: u32 = 0x9E37_79B9;

pub struct Xtea {
    key: [u32; 4],
}

fn scrambled(v: u32) -> u32 {
    ((v << 4) ^ (v >> 5)).wrapping_add(v)
}

impl Xtea {
    pub fn new(key: &[u8; 16]) -> Xtea {
        Xtea { key: std::array::from_fn(|i| u32::from_be_bytes([key[4 * i], key[4 * i + 1], key[4 * i + 2], key[4 * i + 3]])) }
    }

    fn of_first(&self, s: u32) -> u32 {
        s.wrapping_add(self.key[(s % 4) as usize])
    }

    fn of_second(&self, s: u32) -> u32 {
        s.wrapping_add(self.key[(s / 2048 % 4) as usize])
    }

    pub fn encrypt(&self, block: u64) -> u64 {
        let (mut v0, mut v1) = ((block >> 32) as u32, block as u32);
        for cycle in 0..32u32 {
            v0 = v0.wrapping_add(scrambled(v1) ^ self.of_first(DELTA.wrapping_mul(cycle)));
            v1 = v1.wrapping_add(scrambled(v0) ^ self.of_second(DELTA.wrapping_mul(cycle + 1)));
        }
        (u64::from(v0) << 32) | u64::from(v1)
    }

    pub fn decrypt(&self, block: u64) -> u64 {
        let (mut v0, mut v1) = ((block >> 32) as u32, block as u32);
        for cycle in (0..32u32).rev() {
            v1 = v1.wrapping_sub(scrambled(v0) ^ self.of_second(DELTA.wrapping_mul(cycle + 1)));
            v0 = v0.wrapping_sub(scrambled(v1) ^ self.of_first(DELTA.wrapping_mul(cycle)));
        }
        (u64::from(v0) << 32) | u64::from(v1)
    }
}
