//! A cipher: its block kind, and the two maps on its blocks.
use super::aes::Aes;
use super::field::{Kind, SHORT, WIDE};
use super::xtea::Xtea;

pub trait Cipher {
    fn kind(&self) -> Kind;
    /// E
    fn encrypt(&self, b: u128) -> u128;
    /// D
    fn decrypt(&self, b: u128) -> u128;
}

impl Cipher for Aes {
    fn kind(&self) -> Kind {
        WIDE
    }
    fn encrypt(&self, b: u128) -> u128 {
        u128::from_be_bytes(Aes::encrypt(self, &b.to_be_bytes()))
    }
    fn decrypt(&self, b: u128) -> u128 {
        u128::from_be_bytes(Aes::decrypt(self, &b.to_be_bytes()))
    }
}

impl Cipher for Xtea {
    fn kind(&self) -> Kind {
        SHORT
    }
    fn encrypt(&self, b: u128) -> u128 {
        u128::from(Xtea::encrypt(self, b as u64))
    }
    fn decrypt(&self, b: u128) -> u128 {
        u128::from(Xtea::decrypt(self, b as u64))
    }
}

/// E'(b) = E(b + a) + c, D'(b) = D(b + c) + a.
pub struct Whitened<C> {
    pub inner: C,
    pub a: u128,
    pub c: u128,
}

impl<C: Cipher> Cipher for Whitened<C> {
    fn kind(&self) -> Kind {
        self.inner.kind()
    }
    fn encrypt(&self, b: u128) -> u128 {
        self.inner.encrypt(b ^ self.a) ^ self.c
    }
    fn decrypt(&self, b: u128) -> u128 {
        self.inner.decrypt(b ^ self.c) ^ self.a
    }
}

/// E(b) = D(b) = b.
pub struct Glass(pub Kind);

impl Cipher for Glass {
    fn kind(&self) -> Kind {
        self.0
    }
    fn encrypt(&self, b: u128) -> u128 {
        b
    }
    fn decrypt(&self, b: u128) -> u128 {
        b
    }
}

impl Cipher for Box<dyn Cipher> {
    fn kind(&self) -> Kind {
        (**self).kind()
    }
    fn encrypt(&self, b: u128) -> u128 {
        (**self).encrypt(b)
    }
    fn decrypt(&self, b: u128) -> u128 {
        (**self).decrypt(b)
    }
}
