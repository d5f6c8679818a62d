//! The two block kinds as fields of polynomials over two elements, bit by bit on a `u128`.

/// A block kind: `bits` coefficients, and the modulus x^bits + (the polynomial `low`).
/// The bit of weight 2^i of an element is the coefficient of x^i.
#[derive(Clone, Copy, Debug, PartialEq, Eq)]
pub struct Kind {
    pub bits: u32,
    pub low: u128,
}

/// 128 bits, x^128 + x^7 + x^2 + x + 1.
pub const WIDE: Kind = Kind { bits: 128, low: 0b1000_0111 };
/// 64 bits, x^64 + x^4 + x^3 + x + 1.
pub const SHORT: Kind = Kind { bits: 64, low: 0b1_1011 };

impl Kind {
    /// B, the bytes of a block.
    pub fn bytes(self) -> usize {
        self.bits as usize / 8
    }

    fn top(self) -> u128 {
        1 << (self.bits - 1)
    }

    fn all(self) -> u128 {
        self.top() | (self.top() - 1)
    }

    /// x times an element.
    pub fn times_x(self, a: u128) -> u128 {
        let shifted = (a << 1) & self.all();
        if a & self.top() != 0 { shifted ^ self.low } else { shifted }
    }

    /// The product: for each coefficient of b, from the highest, the sum so far is multiplied by x and a is added.
    pub fn times(self, a: u128, b: u128) -> u128 {
        let mut sum = 0;
        for i in (0..self.bits).rev() {
            sum = self.times_x(sum);
            if (b >> i) & 1 == 1 {
                sum ^= a;
            }
        }
        sum
    }

    /// The inverse a^(2^n - 2): the product of a^2, a^4, .. a^(2^(n-1)). Zero has none.
    pub fn inverse(self, a: u128) -> Option<u128> {
        if a == 0 {
            return None;
        }
        let mut square = a;
        let mut product = 1;
        for _ in 1..self.bits {
            square = self.times(square, square);
            product = self.times(product, square);
        }
        Some(product)
    }

    /// The block of a string of B bytes, the top bit first.
    pub fn load(self, bytes: &[u8]) -> u128 {
        assert_eq!(bytes.len(), self.bytes());
        bytes.iter().fold(0, |n, b| (n << 8) | u128::from(*b))
    }

    pub fn store(self, a: u128) -> Vec<u8> {
        (0..self.bytes()).rev().map(|i| (a >> (8 * i)) as u8).collect()
    }
}

/// The run of length 3t as written polynomials: x^1 to x^(2t), then x^(2i-1) + x^(2i) for i from 1 to t.
fn run(length: u32) -> Vec<u128> {
    let t = length / 3;
    let powers = (1..=2 * t).map(|i| 1u128 << i);
    let pairs = (1..=t).map(|i| (1u128 << (2 * i - 1)) | (1u128 << (2 * i)));
    powers.chain(pairs).collect()
}

/// The mask coefficients for m blocks, m from 3 to 64, as written polynomials.
pub fn coefficients(m: u32) -> Vec<u128> {
    assert!((3..=64).contains(&m));
    let x = |i: u32| 1u128 << i;
    match m % 3 {
        0 => run(m),
        1 => {
            let head = [x(0) ^ x(1), x(1) ^ x(2), x(2) ^ x(3), x(3) ^ x(0)];
            head.into_iter().chain(run(m - 4).into_iter().map(|p| p << 3)).collect()
        }
        _ => {
            let head = [x(0) ^ x(1), x(1) ^ x(2), x(2) ^ x(3), x(3) ^ x(4), x(4) ^ x(0)];
            head.into_iter().chain(run(m - 5).into_iter().map(|p| p << 4)).collect()
        }
    }
}
