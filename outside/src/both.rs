//! One cipher in both implementations.
use crate::proved::Keyed;
use crate::random::Random;
use crate::second::aes::Aes;
use crate::second::cipher::{Cipher, Whitened};
use crate::second::field::{Kind, SHORT};
use crate::second::xtea::Xtea;

#[derive(Clone, Copy, Debug, PartialEq, Eq)]
pub enum Which {
    Aes,
    Xtea,
    Whitened,
}

pub const ALL: [Which; 3] = [Which::Aes, Which::Xtea, Which::Whitened];

pub struct Both {
    pub proved: Keyed,
    pub second: Box<dyn Cipher>,
}

impl Both {
    pub fn random(which: Which, random: &mut Random) -> Both {
        Both::new(match which {
            Which::Aes => Keyed::Aes(random.array()),
            Which::Xtea => Keyed::Xtea(random.array()),
            Which::Whitened => Keyed::Whitened(random.array()),
        })
    }

    pub fn new(proved: Keyed) -> Both {
        let second: Box<dyn Cipher> = match &proved {
            Keyed::Aes(key) => Box::new(Aes::new(key)),
            Keyed::Xtea(key) => Box::new(Xtea::new(key)),
            Keyed::Whitened(key) => {
                let inner = Xtea::new(key[..16].try_into().unwrap());
                Box::new(Whitened { inner, a: SHORT.load(&key[16..24]), c: SHORT.load(&key[24..]) })
            }
        };
        Both { proved, second }
    }

    pub fn kind(&self) -> Kind {
        self.second.kind()
    }

    /// The one tweak that enciphers to zero.
    pub fn dead_tweak(&self) -> Vec<u8> {
        self.kind().store(self.second.decrypt(0))
    }
}
