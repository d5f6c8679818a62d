//! The sealing mode: sealing and unsealing of 1 to 64 blocks, and the buffer after each of the three passes.
use super::cipher::Cipher;
use super::field::coefficients;

/// R, EN, EEN and m.
#[derive(Clone, Copy)]
pub struct Begun {
    pub r: u128,
    pub en: u128,
    pub een: u128,
    pub m: usize,
}

/// The refusals 10 to 13 in their order: the tweak's length, whole blocks, at most 64 of them, a dead tweak from two blocks up.
pub fn begin<C: Cipher + ?Sized>(cipher: &C, tweak: &[u8], length: usize) -> Result<Begun, u32> {
    let kind = cipher.kind();
    if tweak.len() != kind.bytes() {
        return Err(10);
    }
    if length == 0 || length % kind.bytes() != 0 {
        return Err(11);
    }
    let m = length / kind.bytes();
    if m > 64 {
        return Err(12);
    }
    let r = cipher.encrypt(kind.load(tweak));
    if m >= 2 && r == 0 {
        return Err(13);
    }
    let en = cipher.encrypt(r ^ m as u128);
    let een = cipher.encrypt(kind.times_x(en));
    Ok(Begun { r, en, een, m })
}

fn sum(blocks: &[u128]) -> u128 {
    blocks.iter().fold(0, |s, b| s ^ b)
}

/// Each block times r^(i-1), i counted from 1.
fn by_powers<C: Cipher + ?Sized>(cipher: &C, r: u128, blocks: &[u128]) -> Vec<u128> {
    let kind = cipher.kind();
    let mut power = 1;
    let mut out = Vec::new();
    for b in blocks {
        out.push(kind.times(power, *b));
        power = kind.times(power, r);
    }
    out
}

/// Each block + p_i * mask.
fn with_masks<C: Cipher + ?Sized>(cipher: &C, mask: u128, blocks: &[u128]) -> Vec<u128> {
    let p = coefficients(blocks.len() as u32);
    blocks.iter().zip(p).map(|(b, p)| b ^ cipher.kind().times(p, mask)).collect()
}

/// PP_i from P_i (P_1 itself where m = 1).
pub fn first_pass<C: Cipher + ?Sized>(c: &C, t: &Begun, p: &[u128]) -> Vec<u128> {
    match t.m {
        1 => p.to_vec(),
        2 => vec![p[0], c.kind().times(t.r, p[1])],
        _ => by_powers(c, t.r, p),
    }
}

/// CCC_i from PP_i (E(P_1 + EN) where m = 1).
pub fn second_pass<C: Cipher + ?Sized>(c: &C, t: &Begun, pp: &[u128]) -> Vec<u128> {
    match t.m {
        1 => vec![c.encrypt(pp[0] ^ t.en)],
        2 => {
            let m1 = c.encrypt(pp[0] ^ pp[1] ^ t.en);
            vec![c.encrypt(pp[0] ^ m1 ^ t.en), c.encrypt(pp[1] ^ m1 ^ t.een)]
        }
        _ => {
            let m1 = c.encrypt(sum(pp) ^ t.en);
            with_masks(c, m1, pp).into_iter().map(|ppp| c.encrypt(ppp)).collect()
        }
    }
}

/// C_i from CCC_i.
pub fn third_pass<C: Cipher + ?Sized>(c: &C, t: &Begun, ccc: &[u128]) -> Vec<u128> {
    match t.m {
        1 => vec![ccc[0] ^ c.kind().times_x(t.een)],
        2 => {
            let m2 = c.encrypt(ccc[0] ^ ccc[1] ^ t.en);
            vec![ccc[0] ^ m2 ^ t.en, c.kind().times(t.r, ccc[1] ^ m2 ^ t.een)]
        }
        _ => {
            let m2 = c.encrypt(sum(ccc) ^ t.een);
            by_powers(c, t.r, &with_masks(c, m2, ccc))
        }
    }
}

/// The decryption of PEP, with the inverse L of R.
fn unsealed_blocks<C: Cipher + ?Sized>(c: &C, t: &Begun, sealed: &[u128]) -> Vec<u128> {
    let kind = c.kind();
    if t.m == 1 {
        return vec![c.decrypt(sealed[0] ^ kind.times_x(t.een)) ^ t.en];
    }
    let l = kind.inverse(t.r).expect("a dead tweak was refused before");
    if t.m == 2 {
        let cc = [sealed[0], kind.times(l, sealed[1])];
        let m2 = c.encrypt(cc[0] ^ cc[1] ^ t.een);
        let ppp = [c.decrypt(cc[0] ^ m2 ^ t.en), c.decrypt(cc[1] ^ m2 ^ t.een)];
        let m1 = c.encrypt(ppp[0] ^ ppp[1] ^ t.een);
        return vec![ppp[0] ^ m1 ^ t.en, kind.times(l, ppp[1] ^ m1 ^ t.een)];
    }
    let cc = by_powers(c, l, sealed);
    let m2 = c.encrypt(sum(&cc) ^ t.een);
    let ppp: Vec<u128> = with_masks(c, m2, &cc).into_iter().map(|ccc| c.decrypt(ccc)).collect();
    let m1 = c.encrypt(sum(&ppp) ^ t.en);
    by_powers(c, l, &with_masks(c, m1, &ppp))
}

pub fn blocks<C: Cipher + ?Sized>(c: &C, bytes: &[u8]) -> Vec<u128> {
    bytes.chunks(c.kind().bytes()).map(|b| c.kind().load(b)).collect()
}

pub fn bytes<C: Cipher + ?Sized>(c: &C, blocks: &[u128]) -> Vec<u8> {
    blocks.iter().flat_map(|b| c.kind().store(*b)).collect()
}

/// The sealed bytes, or the number of the refusal.
pub fn seal<C: Cipher + ?Sized>(c: &C, tweak: &[u8], text: &[u8]) -> Result<Vec<u8>, u32> {
    let t = begin(c, tweak, text.len())?;
    let pp = first_pass(c, &t, &blocks(c, text));
    let ccc = second_pass(c, &t, &pp);
    Ok(bytes(c, &third_pass(c, &t, &ccc)))
}

/// The text of sealed bytes, or the number of the refusal.
pub fn unseal<C: Cipher + ?Sized>(c: &C, tweak: &[u8], sealed: &[u8]) -> Result<Vec<u8>, u32> {
    let t = begin(c, tweak, sealed.len())?;
    Ok(bytes(c, &unsealed_blocks(c, &t, &blocks(c, sealed))))
}
