//! AES-128 by FIPS 197, with its S-box worked out from the field of 256 elements.
use std::sync::OnceLock;

fn times(a: u8, b: u8) -> u8 {
    let mut sum = 0u8;
    for i in (0..8).rev() {
        sum = (sum << 1) ^ if sum & 0x80 != 0 { 0x1b } else { 0 };
        if (b >> i) & 1 == 1 {
            sum ^= a;
        }
    }
    sum
}

/// The S-box of one byte: its inverse a^254 (0 for 0), then the affine map, bit by bit.
fn s_box(a: u8) -> u8 {
    let inverse = (0..254).fold(1, |p, _| times(p, a));
    let bit = |i: u32| (inverse >> (i % 8)) & 1;
    (0..8).fold(0, |s, i| {
        let b = bit(i) ^ bit(i + 4) ^ bit(i + 5) ^ bit(i + 6) ^ bit(i + 7) ^ ((0x63 >> i) & 1);
        s | (b << i)
    })
}

struct Boxes {
    forward: [u8; 256],
    backward: [u8; 256],
}

fn boxes() -> &'static Boxes {
    static BOXES: OnceLock<Boxes> = OnceLock::new();
    BOXES.get_or_init(|| {
        let forward: [u8; 256] = std::array::from_fn(|i| s_box(i as u8));
        let mut backward = [0; 256];
        for (i, s) in forward.iter().enumerate() {
            backward[*s as usize] = i as u8;
        }
        Boxes { forward, backward }
    })
}

/// The state: byte r + 4c of the block stands in row r, column c.
type State = [[u8; 4]; 4];

fn state(block: &[u8; 16]) -> State {
    std::array::from_fn(|r| std::array::from_fn(|c| block[r + 4 * c]))
}

fn block(state: &State) -> [u8; 16] {
    std::array::from_fn(|i| state[i % 4][i / 4])
}

pub struct Aes {
    round_keys: Vec<[u8; 16]>,
}

impl Aes {
    pub fn new(key: &[u8; 16]) -> Aes {
        let mut words: Vec<[u8; 4]> = (0..4).map(|i| [key[4 * i], key[4 * i + 1], key[4 * i + 2], key[4 * i + 3]]).collect();
        let mut constant = 1u8;
        for i in 4..44 {
            let mut t = words[i - 1];
            if i % 4 == 0 {
                t = [t[1], t[2], t[3], t[0]].map(|b| boxes().forward[b as usize]);
                t[0] ^= constant;
                constant = times(constant, 2);
            }
            let before = words[i - 4];
            words.push(std::array::from_fn(|j| before[j] ^ t[j]));
        }
        Aes { round_keys: words.chunks(4).map(|w| std::array::from_fn(|i| w[i / 4][i % 4])).collect() }
    }

    /// The eleven round keys, one after another.
    pub fn expanded(&self) -> Vec<u8> {
        self.round_keys.concat()
    }

    fn add_round_key(&self, s: &mut State, round: usize) {
        let key = state(&self.round_keys[round]);
        for r in 0..4 {
            for c in 0..4 {
                s[r][c] ^= key[r][c];
            }
        }
    }

    pub fn encrypt(&self, text: &[u8; 16]) -> [u8; 16] {
        let mut s = state(text);
        self.add_round_key(&mut s, 0);
        for round in 1..=10 {
            s = s.map(|row| row.map(|b| boxes().forward[b as usize]));
            s = std::array::from_fn(|r| std::array::from_fn(|c| s[r][(c + r) % 4]));
            if round < 10 {
                s = mix(&s, [2, 3, 1, 1]);
            }
            self.add_round_key(&mut s, round);
        }
        block(&s)
    }

    pub fn decrypt(&self, text: &[u8; 16]) -> [u8; 16] {
        let mut s = state(text);
        self.add_round_key(&mut s, 10);
        for round in (0..10).rev() {
            s = std::array::from_fn(|r| std::array::from_fn(|c| s[r][(c + 4 - r) % 4]));
            s = s.map(|row| row.map(|b| boxes().backward[b as usize]));
            self.add_round_key(&mut s, round);
            if round > 0 {
                s = mix(&s, [14, 11, 13, 9]);
            }
        }
        block(&s)
    }
}

/// Each column times the circulant matrix whose first row is `row`.
fn mix(s: &State, row: [u8; 4]) -> State {
    std::array::from_fn(|r| std::array::from_fn(|c| (0..4).fold(0, |sum, k| sum ^ times(s[k][c], row[(k + 4 - r) % 4]))))
}
