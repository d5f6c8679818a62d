//! The proved library behind safe functions. Each call hands over pointers and lengths of slices that live through the call; the library keeps none.

use crate::second::card::{Call, Fault, Layer};

/// The outcome of a call as it crosses: what the C header says.
#[repr(C)]
#[derive(Clone, Copy, Debug, PartialEq, Eq)]
pub struct Outcome {
    pub number: u32,
    pub layer: u32,
    pub cause: u32,
    pub places: u32,
    pub sector: u64,
    pub key: u64,
}

pub const ACCEPTED: Outcome = Outcome { number: 0, layer: 0, cause: 0, places: 0, sector: 0, key: 0 };

impl Outcome {
    /// What a call on a card answers where the second implementation gives this result.
    pub fn of_card(result: Result<(), Fault>) -> Outcome {
        let Err(fault) = result else { return ACCEPTED };
        Outcome {
            number: fault.number,
            layer: if fault.layer == Layer::Sealing { 1 } else { 2 },
            cause: u32::from(fault.number == 13),
            places: u32::from(fault.sector.is_some()) + u32::from(fault.key.is_some()),
            sector: fault.sector.unwrap_or(0) as u64,
            key: fault.key.unwrap_or(0) as u64,
        }
    }

    /// What a direct sealing or unsealing answers where the second implementation refuses by this number, or accepts.
    pub fn of_sealing(result: Result<(), u32>) -> Outcome {
        match result {
            Ok(()) => ACCEPTED,
            Err(number) => Outcome { number, layer: 1, cause: u32::from(number == 13), ..ACCEPTED },
        }
    }
}

mod raw {
    use super::Outcome;
    unsafe extern "C" {
        pub fn cardlock_wide_walk(image: *const u8, length: usize, codes: *mut u64, count: usize) -> Outcome;
        pub fn cardlock_short_walk(image: *const u8, length: usize, codes: *mut u64, count: usize) -> Outcome;
        pub fn cardlock_wide_product(a: *const u8, b: *mut u8);
        pub fn cardlock_short_product(a: *const u8, b: *mut u8);
        pub fn cardlock_wide_inverse(a: *mut u8) -> bool;
        pub fn cardlock_short_inverse(a: *mut u8) -> bool;
        pub fn cardlock_aes_encrypt(key: *const u8, block: *mut u8);
        pub fn cardlock_aes_decrypt(key: *const u8, block: *mut u8);
        pub fn cardlock_xtea_encrypt(key: *const u8, block: *mut u8);
        pub fn cardlock_xtea_decrypt(key: *const u8, block: *mut u8);
        pub fn cardlock_whitened_encrypt(key: *const u8, block: *mut u8);
        pub fn cardlock_whitened_decrypt(key: *const u8, block: *mut u8);
        pub fn cardlock_aes_seal(key: *const u8, tweak: *const u8, tweak_length: usize, buffer: *mut u8, length: usize) -> Outcome;
        pub fn cardlock_aes_unseal(key: *const u8, tweak: *const u8, tweak_length: usize, buffer: *mut u8, length: usize) -> Outcome;
        pub fn cardlock_xtea_seal(key: *const u8, tweak: *const u8, tweak_length: usize, buffer: *mut u8, length: usize) -> Outcome;
        pub fn cardlock_xtea_unseal(key: *const u8, tweak: *const u8, tweak_length: usize, buffer: *mut u8, length: usize) -> Outcome;
        pub fn cardlock_whitened_seal(key: *const u8, tweak: *const u8, tweak_length: usize, buffer: *mut u8, length: usize) -> Outcome;
        pub fn cardlock_whitened_unseal(key: *const u8, tweak: *const u8, tweak_length: usize, buffer: *mut u8, length: usize) -> Outcome;
        pub fn cardlock_aes_open(keys: *const u8, count: usize, image: *const u8, length: usize) -> Outcome;
        pub fn cardlock_aes_write(keys: *const u8, count: usize, image: *mut u8, length: usize, sector: usize, key: usize, text: *const u8, text_length: usize) -> Outcome;
        pub fn cardlock_aes_read(keys: *const u8, count: usize, image: *const u8, length: usize, sector: usize, buffer: *mut u8, buffer_length: usize) -> Outcome;
        pub fn cardlock_aes_rekey(keys: *const u8, count: usize, image: *mut u8, length: usize, sector: usize, key: usize) -> Outcome;
        pub fn cardlock_aes_copy(keys: *const u8, count: usize, image: *mut u8, length: usize, source: usize, destination: usize) -> Outcome;
        pub fn cardlock_xtea_open(keys: *const u8, count: usize, image: *const u8, length: usize) -> Outcome;
        pub fn cardlock_xtea_write(keys: *const u8, count: usize, image: *mut u8, length: usize, sector: usize, key: usize, text: *const u8, text_length: usize) -> Outcome;
        pub fn cardlock_xtea_read(keys: *const u8, count: usize, image: *const u8, length: usize, sector: usize, buffer: *mut u8, buffer_length: usize) -> Outcome;
        pub fn cardlock_xtea_rekey(keys: *const u8, count: usize, image: *mut u8, length: usize, sector: usize, key: usize) -> Outcome;
        pub fn cardlock_xtea_copy(keys: *const u8, count: usize, image: *mut u8, length: usize, source: usize, destination: usize) -> Outcome;
        pub fn cardlock_whitened_open(keys: *const u8, count: usize, image: *const u8, length: usize) -> Outcome;
        pub fn cardlock_whitened_write(keys: *const u8, count: usize, image: *mut u8, length: usize, sector: usize, key: usize, text: *const u8, text_length: usize) -> Outcome;
        pub fn cardlock_whitened_read(keys: *const u8, count: usize, image: *const u8, length: usize, sector: usize, buffer: *mut u8, buffer_length: usize) -> Outcome;
        pub fn cardlock_whitened_rekey(keys: *const u8, count: usize, image: *mut u8, length: usize, sector: usize, key: usize) -> Outcome;
        pub fn cardlock_whitened_copy(keys: *const u8, count: usize, image: *mut u8, length: usize, source: usize, destination: usize) -> Outcome;
        pub fn cardlock_wide_format(image: *mut u8, length: usize, number: *const u8, number_length: usize) -> Outcome;
        pub fn cardlock_wide_erase(image: *mut u8, length: usize, sector: usize) -> Outcome;
        pub fn cardlock_short_format(image: *mut u8, length: usize, number: *const u8, number_length: usize) -> Outcome;
        pub fn cardlock_short_erase(image: *mut u8, length: usize, sector: usize) -> Outcome;
    }
}

/// The number of each sector, as far as there are places, of an image with blocks of 16 bytes (`wide`) or 8.
pub fn walk(wide: bool, image: &[u8], codes: &mut [u64]) -> Outcome {
    let (i, n, c, m) = (image.as_ptr(), image.len(), codes.as_mut_ptr(), codes.len());
    if wide { unsafe { raw::cardlock_wide_walk(i, n, c, m) } } else { unsafe { raw::cardlock_short_walk(i, n, c, m) } }
}

pub fn wide_product(a: &[u8; 16], b: &mut [u8; 16]) {
    unsafe { raw::cardlock_wide_product(a.as_ptr(), b.as_mut_ptr()) }
}

pub fn short_product(a: &[u8; 8], b: &mut [u8; 8]) {
    unsafe { raw::cardlock_short_product(a.as_ptr(), b.as_mut_ptr()) }
}

pub fn wide_inverse(a: &mut [u8; 16]) -> bool {
    unsafe { raw::cardlock_wide_inverse(a.as_mut_ptr()) }
}

pub fn short_inverse(a: &mut [u8; 8]) -> bool {
    unsafe { raw::cardlock_short_inverse(a.as_mut_ptr()) }
}

/// A cipher of the library, by its key's bytes.
#[derive(Clone, Copy, Debug, PartialEq, Eq)]
pub enum Keyed {
    Aes([u8; 16]),
    Xtea([u8; 16]),
    /// The key, the block before and the block after.
    Whitened([u8; 32]),
}

impl Keyed {
    pub fn block_bytes(&self) -> usize {
        if let Keyed::Aes(_) = self { 16 } else { 8 }
    }

    pub fn encrypt(&self, block: &mut [u8]) {
        assert_eq!(block.len(), self.block_bytes());
        let b = block.as_mut_ptr();
        match self {
            Keyed::Aes(key) => unsafe { raw::cardlock_aes_encrypt(key.as_ptr(), b) },
            Keyed::Xtea(key) => unsafe { raw::cardlock_xtea_encrypt(key.as_ptr(), b) },
            Keyed::Whitened(key) => unsafe { raw::cardlock_whitened_encrypt(key.as_ptr(), b) },
        }
    }

    pub fn decrypt(&self, block: &mut [u8]) {
        assert_eq!(block.len(), self.block_bytes());
        let b = block.as_mut_ptr();
        match self {
            Keyed::Aes(key) => unsafe { raw::cardlock_aes_decrypt(key.as_ptr(), b) },
            Keyed::Xtea(key) => unsafe { raw::cardlock_xtea_decrypt(key.as_ptr(), b) },
            Keyed::Whitened(key) => unsafe { raw::cardlock_whitened_decrypt(key.as_ptr(), b) },
        }
    }

    pub fn seal(&self, tweak: &[u8], buffer: &mut [u8]) -> Outcome {
        let (t, tl, b, bl) = (tweak.as_ptr(), tweak.len(), buffer.as_mut_ptr(), buffer.len());
        match self {
            Keyed::Aes(key) => unsafe { raw::cardlock_aes_seal(key.as_ptr(), t, tl, b, bl) },
            Keyed::Xtea(key) => unsafe { raw::cardlock_xtea_seal(key.as_ptr(), t, tl, b, bl) },
            Keyed::Whitened(key) => unsafe { raw::cardlock_whitened_seal(key.as_ptr(), t, tl, b, bl) },
        }
    }

    pub fn unseal(&self, tweak: &[u8], buffer: &mut [u8]) -> Outcome {
        let (t, tl, b, bl) = (tweak.as_ptr(), tweak.len(), buffer.as_mut_ptr(), buffer.len());
        match self {
            Keyed::Aes(key) => unsafe { raw::cardlock_aes_unseal(key.as_ptr(), t, tl, b, bl) },
            Keyed::Xtea(key) => unsafe { raw::cardlock_xtea_unseal(key.as_ptr(), t, tl, b, bl) },
            Keyed::Whitened(key) => unsafe { raw::cardlock_whitened_unseal(key.as_ptr(), t, tl, b, bl) },
        }
    }
}

/// The keys of a ring, one after another.
#[derive(Clone, Debug)]
pub enum Ring {
    Aes(Vec<[u8; 16]>),
    Xtea(Vec<[u8; 16]>),
    Whitened(Vec<[u8; 32]>),
}

/// Makes one call of the library on an image.
pub fn act(ring: &Ring, image: &mut [u8], call: &mut Call) -> Outcome {
    let (i, n) = (image.as_mut_ptr(), image.len());
    macro_rules! with {
        ($keys:expr, $open:ident, $write:ident, $read:ident, $rekey:ident, $copy:ident, $format:ident, $erase:ident) => {{
            let (k, c) = ($keys.as_ptr().cast::<u8>(), $keys.len());
            match call {
                Call::Format { number } => unsafe { raw::$format(i, n, number.as_ptr(), number.len()) },
                Call::Open => unsafe { raw::$open(k, c, i, n) },
                Call::Write { sector, key, text } => unsafe { raw::$write(k, c, i, n, *sector, *key, text.as_ptr(), text.len()) },
                Call::Read { sector, buffer } => unsafe { raw::$read(k, c, i, n, *sector, buffer.as_mut_ptr(), buffer.len()) },
                Call::Rekey { sector, key } => unsafe { raw::$rekey(k, c, i, n, *sector, *key) },
                Call::Copy { from, to } => unsafe { raw::$copy(k, c, i, n, *from, *to) },
                Call::Erase { sector } => unsafe { raw::$erase(i, n, *sector) },
            }
        }};
    }
    match ring {
        Ring::Aes(keys) => with!(keys, cardlock_aes_open, cardlock_aes_write, cardlock_aes_read, cardlock_aes_rekey, cardlock_aes_copy, cardlock_wide_format, cardlock_wide_erase),
        Ring::Xtea(keys) => with!(keys, cardlock_xtea_open, cardlock_xtea_write, cardlock_xtea_read, cardlock_xtea_rekey, cardlock_xtea_copy, cardlock_short_format, cardlock_short_erase),
        Ring::Whitened(keys) => {
            with!(keys, cardlock_whitened_open, cardlock_whitened_write, cardlock_whitened_read, cardlock_whitened_rekey, cardlock_whitened_copy, cardlock_short_format, cardlock_short_erase)
        }
    }
}
