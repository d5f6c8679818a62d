//! The card image and the seven calls on it, each with its checks in its own order.
use super::cipher::Cipher;
use super::field::Kind;
use super::mode;

pub const TEXT: usize = 512;
pub const RECORD: usize = 2 + TEXT;
const FIRST_BYTE: u8 = 0x43;
const KEY_MARK: u8 = 0x4b;

#[derive(Clone, Copy, Debug, PartialEq, Eq)]
pub enum Layer {
    Sealing,
    Card,
}

/// A refusal: its number, the layer that refuses, and the place where the rules name one.
#[derive(Clone, Copy, Debug, PartialEq, Eq)]
pub struct Fault {
    pub number: u32,
    pub layer: Layer,
    pub sector: Option<usize>,
    pub key: Option<usize>,
}

fn card(number: u32) -> Fault {
    Fault { number, layer: Layer::Card, sector: None, key: None }
}

fn at(number: u32, sector: usize) -> Fault {
    Fault { number, layer: Layer::Card, sector: Some(sector), key: None }
}

fn sealing(number: u32, sector: usize, key: usize) -> Fault {
    Fault { number, layer: Layer::Sealing, sector: Some(sector), key: Some(key) }
}

/// A call with its arguments; the buffer of a read is part of it.
#[derive(Clone, Debug, PartialEq, Eq)]
pub enum Call {
    Format { number: Vec<u8> },
    Open,
    Write { sector: usize, key: usize, text: Vec<u8> },
    Read { sector: usize, buffer: Vec<u8> },
    Rekey { sector: usize, key: usize },
    Copy { from: usize, to: usize },
    Erase { sector: usize },
}

/// N, where the image has an allowed length; otherwise refusal 2.
pub fn sectors(kind: Kind, image: &[u8]) -> Result<usize, Fault> {
    (1..=65_535).find(|n| image.len() == 2 + kind.bytes() + RECORD * n).ok_or(card(2))
}

/// Refusals 2 and 3.
pub fn header(kind: Kind, image: &[u8]) -> Result<usize, Fault> {
    let n = sectors(kind, image)?;
    if image[0] != FIRST_BYTE || image[1] as usize != kind.bytes() {
        return Err(card(3));
    }
    Ok(n)
}

fn ring_size<C>(ring: &[C]) -> Result<(), Fault> {
    if ring.is_empty() || ring.len() > 8 { Err(card(1)) } else { Ok(()) }
}

fn in_card(sector: usize, n: usize) -> Result<(), Fault> {
    if sector >= n { Err(at(4, sector)) } else { Ok(()) }
}

fn place(kind: Kind, sector: usize) -> std::ops::Range<usize> {
    let start = 2 + kind.bytes() + RECORD * sector;
    start..start + RECORD
}

/// What a mark says: nothing there (`None`), or a key number below the ring's size; otherwise refusal 7.
pub fn mark(record: &[u8], keys: usize, sector: usize) -> Result<Option<usize>, Fault> {
    match (record[0], record[1] as usize) {
        (0, 0) => Ok(None),
        (KEY_MARK, key) if key < keys => Ok(Some(key)),
        _ => Err(at(7, sector)),
    }
}

/// Card number + bin(sector).
fn tweak(kind: Kind, image: &[u8], sector: usize) -> Vec<u8> {
    kind.store(kind.load(&image[2..2 + kind.bytes()]) ^ sector as u128)
}

/// The key number of a sector to read, rekey or copy from: refusals 7 and 9.
fn sealed_key(kind: Kind, image: &[u8], keys: usize, sector: usize) -> Result<usize, Fault> {
    mark(&image[place(kind, sector)], keys, sector)?.ok_or(at(9, sector))
}

/// The text of a sealed sector: refusal 13.
fn text_of<C: Cipher>(kind: Kind, ring: &[C], image: &[u8], sector: usize, key: usize) -> Result<Vec<u8>, Fault> {
    let sealed = &image[place(kind, sector)][2..];
    mode::unseal(&ring[key], &tweak(kind, image, sector), sealed).map_err(|n| sealing(n, sector, key))
}

/// A sector gets this key number and text: refusal 13.
fn put<C: Cipher>(kind: Kind, ring: &[C], image: &mut [u8], sector: usize, key: usize, text: &[u8]) -> Result<(), Fault> {
    let sealed = mode::seal(&ring[key], &tweak(kind, image, sector), text).map_err(|n| sealing(n, sector, key))?;
    let record = &mut image[place(kind, sector)];
    record[0] = KEY_MARK;
    record[1] = key as u8;
    record[2..].copy_from_slice(&sealed);
    Ok(())
}

/// Does one call on an image with a ring of ciphers of this kind. A refusal changes neither image nor buffer.
pub fn act<C: Cipher>(kind: Kind, ring: &[C], image: &mut [u8], call: &mut Call) -> Result<(), Fault> {
    match call {
        Call::Format { number } => {
            sectors(kind, image)?;
            if number.len() != kind.bytes() {
                return Err(card(10));
            }
            image.fill(0);
            image[0] = FIRST_BYTE;
            image[1] = kind.bytes() as u8;
            image[2..2 + kind.bytes()].copy_from_slice(number);
        }
        Call::Open => {
            ring_size(ring)?;
            for sector in 0..header(kind, image)? {
                let record = &image[place(kind, sector)];
                match mark(record, ring.len(), sector)? {
                    None if record.iter().any(|b| *b != 0) => return Err(at(8, sector)),
                    None => {}
                    Some(key) => {
                        mode::begin(&ring[key], &tweak(kind, image, sector), TEXT).map_err(|n| sealing(n, sector, key))?;
                    }
                }
            }
        }
        Call::Write { sector, key, text } => {
            ring_size(ring)?;
            in_card(*sector, header(kind, image)?)?;
            if *key >= ring.len() {
                return Err(card(5));
            }
            if text.len() != TEXT {
                return Err(card(6));
            }
            put(kind, ring, image, *sector, *key, text)?;
        }
        Call::Read { sector, buffer } => {
            ring_size(ring)?;
            in_card(*sector, header(kind, image)?)?;
            if buffer.len() != TEXT {
                return Err(card(6));
            }
            let key = sealed_key(kind, image, ring.len(), *sector)?;
            let text = text_of(kind, ring, image, *sector, key)?;
            buffer.copy_from_slice(&text);
        }
        Call::Rekey { sector, key } => {
            ring_size(ring)?;
            in_card(*sector, header(kind, image)?)?;
            if *key >= ring.len() {
                return Err(card(5));
            }
            let old = sealed_key(kind, image, ring.len(), *sector)?;
            let text = text_of(kind, ring, image, *sector, old)?;
            put(kind, ring, image, *sector, *key, &text)?;
        }
        Call::Copy { from, to } => {
            ring_size(ring)?;
            let n = header(kind, image)?;
            in_card(*from, n)?;
            in_card(*to, n)?;
            let key = sealed_key(kind, image, ring.len(), *from)?;
            let text = text_of(kind, ring, image, *from, key)?;
            put(kind, ring, image, *to, key, &text)?;
        }
        Call::Erase { sector } => {
            in_card(*sector, header(kind, image)?)?;
            image[place(kind, *sector)].fill(0);
        }
    }
    Ok(())
}

/// One entry a record: blank, or a key number with its sealed bytes. Refusals 2 and 3, then 7 (as for a ring of eight) and 8 at each record.
pub fn walk(kind: Kind, image: &[u8]) -> Result<Vec<Option<(usize, &[u8])>>, Fault> {
    let mut entries = Vec::new();
    for sector in 0..header(kind, image)? {
        let record = &image[place(kind, sector)];
        let key = mark(record, 8, sector)?;
        if key.is_none() && record.iter().any(|b| *b != 0) {
            return Err(at(8, sector));
        }
        entries.push(key.map(|key| (key, &record[2..])));
    }
    Ok(entries)
}
