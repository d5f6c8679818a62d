//! The same algorithms in plain Rust, written for speed, for the benchmark: no proof, no contract, what a good programmer would write.

/// The wide kind on a `u128`.
pub mod wide {
    pub fn double(a: u128) -> u128 {
        (a << 1) ^ ((a >> 127) * 0x87)
    }

    /// The multiples of b by the 16 polynomials of degree below 4.
    fn table(b: u128) -> [u128; 16] {
        let mut t = [0; 16];
        t[1] = b;
        for i in 1..8 {
            t[2 * i] = double(t[i]);
            t[2 * i + 1] = t[2 * i] ^ b;
        }
        t
    }

    fn by_table(a: u128, t: &[u128; 16]) -> u128 {
        let mut sum = 0u128;
        for i in (0..32).rev() {
            let out = sum >> 124;
            sum = (sum << 4) ^ out ^ (out << 1) ^ (out << 2) ^ (out << 7);
            sum ^= t[((a >> (4 * i)) & 15) as usize];
        }
        sum
    }

    pub fn times(a: u128, b: u128) -> u128 {
        by_table(a, &table(b))
    }

    pub fn times_both(b: u128, a: u128, c: u128) -> (u128, u128) {
        let t = table(b);
        (by_table(a, &t), by_table(c, &t))
    }

    /// By the extended Euclidean algorithm on polynomials.
    pub fn inverse(a: u128) -> Option<u128> {
        if a == 0 {
            return None;
        }
        if a == 1 {
            return Some(1);
        }
        // the first step takes the modulus, which has one bit too many
        let shift = a.leading_zeros() + 1;
        let (mut u, mut v) = (0x87 ^ a.checked_shl(shift).unwrap_or(0), a);
        let (mut g, mut h) = (1u128.checked_shl(shift).unwrap_or(0), 1u128);
        while u != 1 && v != 1 {
            if u.leading_zeros() > v.leading_zeros() {
                std::mem::swap(&mut u, &mut v);
                std::mem::swap(&mut g, &mut h);
            }
            let d = v.leading_zeros() - u.leading_zeros();
            u ^= v << d;
            g ^= h << d;
        }
        Some(if u == 1 { g } else { h })
    }
}

/// The short kind on a `u64`.
pub mod short {
    pub fn double(a: u64) -> u64 {
        (a << 1) ^ ((a >> 63) * 0x1b)
    }

    fn table(b: u64) -> [u64; 16] {
        let mut t = [0; 16];
        t[1] = b;
        for i in 1..8 {
            t[2 * i] = double(t[i]);
            t[2 * i + 1] = t[2 * i] ^ b;
        }
        t
    }

    fn by_table(a: u64, t: &[u64; 16]) -> u64 {
        let mut sum = 0u64;
        for i in (0..16).rev() {
            let out = sum >> 60;
            sum = (sum << 4) ^ out ^ (out << 1) ^ (out << 3) ^ (out << 4);
            sum ^= t[((a >> (4 * i)) & 15) as usize];
        }
        sum
    }

    pub fn times(a: u64, b: u64) -> u64 {
        by_table(a, &table(b))
    }

    pub fn times_both(b: u64, a: u64, c: u64) -> (u64, u64) {
        let t = table(b);
        (by_table(a, &t), by_table(c, &t))
    }

    pub fn inverse(a: u64) -> Option<u64> {
        if a == 0 {
            return None;
        }
        if a == 1 {
            return Some(1);
        }
        let shift = a.leading_zeros() + 1;
        let (mut u, mut v) = (0x1b ^ a.checked_shl(shift).unwrap_or(0), a);
        let (mut g, mut h) = (1u64.checked_shl(shift).unwrap_or(0), 1u64);
        while u != 1 && v != 1 {
            if u.leading_zeros() > v.leading_zeros() {
                std::mem::swap(&mut u, &mut v);
                std::mem::swap(&mut g, &mut h);
            }
            let d = v.leading_zeros() - u.leading_zeros();
            u ^= v << d;
            g ^= h << d;
        }
        Some(if u == 1 { g } else { h })
    }
}

const fn xtime(a: u8) -> u8 {
    (a << 1) ^ ((a >> 7) * 0x1b)
}

const fn product(mut a: u8, mut b: u8) -> u8 {
    let mut sum = 0;
    while b != 0 {
        if b & 1 == 1 {
            sum ^= a;
        }
        a = xtime(a);
        b >>= 1;
    }
    sum
}

const fn boxes() -> ([u8; 256], [u8; 256]) {
    let (mut forward, mut backward) = ([0u8; 256], [0u8; 256]);
    // 3 generates the units, and f6 hex is its inverse
    let (mut p, mut q) = (1u8, 1u8);
    let mut i = 0;
    forward[0] = 0x63;
    while i < 255 {
        let s = q ^ q.rotate_left(1) ^ q.rotate_left(2) ^ q.rotate_left(3) ^ q.rotate_left(4) ^ 0x63;
        forward[p as usize] = s;
        p = product(p, 3);
        q = product(q, 0xf6);
        i += 1;
    }
    let mut i = 0;
    while i < 256 {
        backward[forward[i] as usize] = i as u8;
        i += 1;
    }
    (forward, backward)
}

static SBOX: [u8; 256] = boxes().0;
static UNSBOX: [u8; 256] = boxes().1;

/// AES-128 on bytes, with the S-box as its only table.
#[derive(Clone)]
pub struct Aes {
    keys: [[u8; 16]; 11],
}

impl Aes {
    pub fn new(key: &[u8; 16]) -> Aes {
        let mut keys = [*key; 11];
        let mut constant = 1;
        for r in 1..11 {
            let last = keys[r - 1];
            let mut t = [SBOX[last[13] as usize] ^ constant, SBOX[last[14] as usize], SBOX[last[15] as usize], SBOX[last[12] as usize]];
            for c in 0..4 {
                for j in 0..4 {
                    t[j] ^= last[4 * c + j];
                    keys[r][4 * c + j] = t[j];
                }
            }
            constant = xtime(constant);
        }
        Aes { keys }
    }

    pub fn encrypt(&self, b: &mut [u8; 16]) {
        for i in 0..16 {
            b[i] ^= self.keys[0][i];
        }
        for r in 1..11 {
            let mut t = [0u8; 16];
            for i in 0..16 {
                t[i] = SBOX[b[(5 * i) % 16] as usize];
            }
            if r < 10 {
                for c in 0..4 {
                    let x = [t[4 * c], t[4 * c + 1], t[4 * c + 2], t[4 * c + 3]];
                    let all = x[0] ^ x[1] ^ x[2] ^ x[3];
                    for j in 0..4 {
                        t[4 * c + j] = x[j] ^ all ^ xtime(x[j] ^ x[(j + 1) % 4]);
                    }
                }
            }
            for i in 0..16 {
                b[i] = t[i] ^ self.keys[r][i];
            }
        }
    }

    pub fn decrypt(&self, b: &mut [u8; 16]) {
        for r in (1..11).rev() {
            let mut t = [0u8; 16];
            for i in 0..16 {
                t[i] = b[i] ^ self.keys[r][i];
            }
            if r < 10 {
                for c in 0..4 {
                    let x = [t[4 * c], t[4 * c + 1], t[4 * c + 2], t[4 * c + 3]];
                    // InvMixColumns is MixColumns after adding 4 (x0 + x2) and 4 (x1 + x3)
                    let even = xtime(xtime(x[0] ^ x[2]));
                    let odd = xtime(xtime(x[1] ^ x[3]));
                    let y = [x[0] ^ even, x[1] ^ odd, x[2] ^ even, x[3] ^ odd];
                    let all = y[0] ^ y[1] ^ y[2] ^ y[3];
                    for j in 0..4 {
                        t[4 * c + j] = y[j] ^ all ^ xtime(y[j] ^ y[(j + 1) % 4]);
                    }
                }
            }
            for i in 0..16 {
                b[(5 * i) % 16] = UNSBOX[t[i] as usize];
            }
        }
        for i in 0..16 {
            b[i] ^= self.keys[0][i];
        }
    }
}

/// XTEA, with whitening (zero where there is none).
#[derive(Clone)]
pub struct Xtea {
    key: [u32; 4],
    before: u64,
    after: u64,
}

impl Xtea {
    pub fn new(key: &[u8; 16], before: u64, after: u64) -> Xtea {
        Xtea { key: std::array::from_fn(|i| u32::from_be_bytes([key[4 * i], key[4 * i + 1], key[4 * i + 2], key[4 * i + 3]])), before, after }
    }

    pub fn encrypt(&self, block: u64) -> u64 {
        let block = block ^ self.before;
        let (mut a, mut b, mut s) = ((block >> 32) as u32, block as u32, 0u32);
        for _ in 0..32 {
            a = a.wrapping_add((((b << 4) ^ (b >> 5)).wrapping_add(b)) ^ s.wrapping_add(self.key[(s & 3) as usize]));
            s = s.wrapping_add(0x9E37_79B9);
            b = b.wrapping_add((((a << 4) ^ (a >> 5)).wrapping_add(a)) ^ s.wrapping_add(self.key[((s >> 11) & 3) as usize]));
        }
        (((a as u64) << 32) | b as u64) ^ self.after
    }

    pub fn decrypt(&self, block: u64) -> u64 {
        let block = block ^ self.after;
        let (mut a, mut b, mut s) = ((block >> 32) as u32, block as u32, 0xC6EF_3720u32);
        for _ in 0..32 {
            b = b.wrapping_sub((((a << 4) ^ (a >> 5)).wrapping_add(a)) ^ s.wrapping_add(self.key[((s >> 11) & 3) as usize]));
            s = s.wrapping_sub(0x9E37_79B9);
            a = a.wrapping_sub((((b << 4) ^ (b >> 5)).wrapping_add(b)) ^ s.wrapping_add(self.key[(s & 3) as usize]));
        }
        (((a as u64) << 32) | b as u64) ^ self.before
    }
}

/// A block of a kind, and a cipher on it: what the mode below needs.
pub trait Field: Copy + PartialEq {
    const ZERO: Self;
    const BYTES: usize;
    fn number(n: u64) -> Self;
    fn add(self, other: Self) -> Self;
    fn double(self) -> Self;
    fn times_both(self, a: Self, c: Self) -> (Self, Self);
    fn inverse(self) -> Option<Self>;
    fn load(bytes: &[u8]) -> Self;
    fn store(self, bytes: &mut [u8]);
}

impl Field for u128 {
    const ZERO: u128 = 0;
    const BYTES: usize = 16;
    fn number(n: u64) -> u128 {
        n as u128
    }
    fn add(self, other: u128) -> u128 {
        self ^ other
    }
    fn double(self) -> u128 {
        wide::double(self)
    }
    fn times_both(self, a: u128, c: u128) -> (u128, u128) {
        wide::times_both(self, a, c)
    }
    fn inverse(self) -> Option<u128> {
        wide::inverse(self)
    }
    fn load(bytes: &[u8]) -> u128 {
        u128::from_be_bytes(bytes.try_into().unwrap())
    }
    fn store(self, bytes: &mut [u8]) {
        bytes.copy_from_slice(&self.to_be_bytes());
    }
}

impl Field for u64 {
    const ZERO: u64 = 0;
    const BYTES: usize = 8;
    fn number(n: u64) -> u64 {
        n
    }
    fn add(self, other: u64) -> u64 {
        self ^ other
    }
    fn double(self) -> u64 {
        short::double(self)
    }
    fn times_both(self, a: u64, c: u64) -> (u64, u64) {
        short::times_both(self, a, c)
    }
    fn inverse(self) -> Option<u64> {
        short::inverse(self)
    }
    fn load(bytes: &[u8]) -> u64 {
        u64::from_be_bytes(bytes.try_into().unwrap())
    }
    fn store(self, bytes: &mut [u8]) {
        bytes.copy_from_slice(&self.to_be_bytes());
    }
}

pub trait Cipher {
    type Block: Field;
    fn encrypt(&self, b: Self::Block) -> Self::Block;
    fn decrypt(&self, b: Self::Block) -> Self::Block;
}

impl Cipher for Aes {
    type Block = u128;
    fn encrypt(&self, b: u128) -> u128 {
        let mut bytes = b.to_be_bytes();
        Aes::encrypt(self, &mut bytes);
        u128::from_be_bytes(bytes)
    }
    fn decrypt(&self, b: u128) -> u128 {
        let mut bytes = b.to_be_bytes();
        Aes::decrypt(self, &mut bytes);
        u128::from_be_bytes(bytes)
    }
}

impl Cipher for Xtea {
    type Block = u64;
    fn encrypt(&self, b: u64) -> u64 {
        Xtea::encrypt(self, b)
    }
    fn decrypt(&self, b: u64) -> u64 {
        Xtea::decrypt(self, b)
    }
}

/// Sealing and unsealing of three blocks and more in place, with the masks by doublings.
pub mod mode {
    use super::{Cipher, Field};

    fn by_powers<F: Field>(r: F, buffer: &mut [u8]) {
        let mut power = F::number(1);
        for block in buffer.chunks_exact_mut(F::BYTES) {
            let (product, next) = power.times_both(F::load(block), r);
            product.store(block);
            power = next;
        }
    }

    fn sum<F: Field>(buffer: &[u8]) -> F {
        buffer.chunks_exact(F::BYTES).fold(F::ZERO, |s, b| s.add(F::load(b)))
    }

    fn add_masks<F: Field>(value: F, buffer: &mut [u8]) {
        let m = buffer.len() / F::BYTES;
        let mut blocks = buffer.chunks_exact_mut(F::BYTES);
        let mut put = |mask: F| {
            if let Some(block) = blocks.next() {
                F::load(block).add(mask).store(block);
            }
        };
        let mut at = value;
        let heads = if m % 3 == 0 { 0 } else { m % 3 + 3 };
        for i in 0..heads {
            if i + 1 < heads {
                let next = at.double();
                put(at.add(next));
                at = next;
            } else {
                put(at.add(value));
            }
        }
        let t = (m - heads) / 3;
        let mut power = at;
        for _ in 0..2 * t {
            power = power.double();
            put(power);
        }
        let mut power = at;
        for _ in 0..t {
            let odd = power.double();
            let even = odd.double();
            put(odd.add(even));
            power = even;
        }
    }

    fn terms<C: Cipher>(c: &C, tweak: &[u8], m: usize) -> (C::Block, C::Block, C::Block) {
        let r = c.encrypt(C::Block::load(tweak));
        let en = c.encrypt(r.add(C::Block::number(m as u64)));
        (r, en, c.encrypt(en.double()))
    }

    pub fn seal<C: Cipher>(c: &C, tweak: &[u8], buffer: &mut [u8]) -> Result<(), u32> {
        let (r, en, een) = terms(c, tweak, buffer.len() / C::Block::BYTES);
        r.inverse().ok_or(13u32)?;
        by_powers(r, buffer);
        add_masks(c.encrypt(sum::<C::Block>(buffer).add(en)), buffer);
        for block in buffer.chunks_exact_mut(C::Block::BYTES) {
            c.encrypt(C::Block::load(block)).store(block);
        }
        add_masks(c.encrypt(sum::<C::Block>(buffer).add(een)), buffer);
        by_powers(r, buffer);
        Ok(())
    }

    pub fn unseal<C: Cipher>(c: &C, tweak: &[u8], buffer: &mut [u8]) -> Result<(), u32> {
        let (r, en, een) = terms(c, tweak, buffer.len() / C::Block::BYTES);
        let l = r.inverse().ok_or(13u32)?;
        by_powers(l, buffer);
        add_masks(c.encrypt(sum::<C::Block>(buffer).add(een)), buffer);
        for block in buffer.chunks_exact_mut(C::Block::BYTES) {
            c.decrypt(C::Block::load(block)).store(block);
        }
        add_masks(c.encrypt(sum::<C::Block>(buffer).add(en)), buffer);
        by_powers(l, buffer);
        Ok(())
    }
}
