//! Random lists of calls on cards by the proved library and by the second implementation: every outcome, every buffer and every byte of the image.
use outside::both::{ALL, Both, Which};
use outside::proved::{self, Keyed, Outcome, Ring};
use outside::random::{Random, seed, times};
use outside::second::card::{self, Call, RECORD, TEXT};
use outside::second::cipher::Cipher;
use outside::second::field::Kind;
use outside::second::field::{SHORT, WIDE};
use std::collections::BTreeMap;

/// One ring in both implementations.
struct Rings {
    proved: Ring,
    second: Vec<Box<dyn Cipher>>,
    dead: Vec<Vec<u8>>,
    kind: Kind,
}

fn rings(which: Which, size: usize, random: &mut Random) -> Rings {
    let both: Vec<Both> = (0..size).map(|_| Both::random(which, random)).collect();
    let keys16 = || both.iter().filter_map(|b| if let Keyed::Aes(k) | Keyed::Xtea(k) = b.proved { Some(k) } else { None }).collect();
    let proved = match which {
        Which::Aes => Ring::Aes(keys16()),
        Which::Xtea => Ring::Xtea(keys16()),
        Which::Whitened => Ring::Whitened(both.iter().filter_map(|b| if let Keyed::Whitened(k) = b.proved { Some(k) } else { None }).collect()),
    };
    let kind = if which == Which::Aes { WIDE } else { SHORT };
    let dead = both.iter().map(Both::dead_tweak).collect();
    Rings { proved, second: both.into_iter().map(|b| b.second).collect(), dead, kind }
}

/// A sector number, mostly on the card.
fn sector(n: usize, random: &mut Random) -> usize {
    if random.once_in(12) { n + random.below(3) } else if random.once_in(60) { usize::MAX - random.below(3) } else { random.below(n.max(1)) }
}

fn key(size: usize, random: &mut Random) -> usize {
    if random.once_in(12) { size + random.below(300) } else { random.below(size.max(1)) }
}

fn length(right: usize, random: &mut Random) -> usize {
    if random.once_in(15) { random.below(2 * right + 2) } else { right }
}

/// A card number: random, small, or one that makes the tweak of some sector dead under some key.
fn number(rings: &Rings, n: usize, random: &mut Random) -> Vec<u8> {
    let b = rings.kind.bytes();
    if random.once_in(3) && !rings.dead.is_empty() {
        let dead = &rings.dead[random.below(rings.dead.len())];
        return rings.kind.store(rings.kind.load(dead) ^ random.below(n.max(1)) as u128);
    }
    let length = length(b, random);
    random.bytes(length)
}

fn call(rings: &Rings, n: usize, random: &mut Random) -> Call {
    let size = rings.second.len();
    match random.below(20) {
        0 => Call::Format { number: number(rings, n, random) },
        1 | 2 => Call::Open,
        3..=8 => {
            let length = length(TEXT, random);
            Call::Write { sector: sector(n, random), key: key(size, random), text: random.bytes(length) }
        }
        9..=12 => {
            let length = length(TEXT, random);
            Call::Read { sector: sector(n, random), buffer: random.bytes(length) }
        }
        13..=15 => Call::Rekey { sector: sector(n, random), key: key(size, random) },
        16..=18 => Call::Copy { from: sector(n, random), to: sector(n, random) },
        _ => Call::Erase { sector: sector(n, random) },
    }
}

/// Changes some bytes of an image: marks, blank records, the header, or its length.
fn spoil(image: &mut Vec<u8>, kind: Kind, n: usize, random: &mut Random) {
    for _ in 0..=random.below(2) {
        let start = 2 + kind.bytes() + RECORD * random.below(n.max(1));
        if image.len() < start + RECORD {
            return;
        }
        match random.below(6) {
            0 => image[start] = random.word() as u8,
            1 => image[start + 1] = random.below(10) as u8,
            2 => image[start..start + 2].fill(0),
            3 => image[start + 2 + random.below(TEXT)] ^= 1 << random.below(8),
            4 => image[random.below(2)] ^= 1 << random.below(8),
            _ => {
                let length = image.len() - 1 + random.below(3);
                image.resize(length, 0);
            }
        }
    }
}

/// Walks an image by both, with fewer, as many and more places than sectors.
fn compare_walks(kind: Kind, image: &[u8]) {
    let wanted = card::walk(kind, image);
    for places in [0, 2, 7] {
        let mut codes = vec![1_000; places];
        let outcome = proved::walk(kind == WIDE, image, &mut codes);
        assert_eq!(outcome, Outcome::of_card(wanted.as_ref().map(|_| ()).map_err(|f| *f)), "walk");
        let mut expected = vec![1_000; places];
        for (place, entry) in expected.iter_mut().zip(wanted.iter().flatten()) {
            *place = entry.map_or(255, |(key, _)| key as u64);
        }
        assert_eq!(codes, expected, "walk");
    }
}

/// Makes one call by both, compares, and gives the number of its outcome.
fn compare(rings: &Rings, image: &mut Vec<u8>, call: &Call) -> u32 {
    let (mut ours, mut theirs) = (call.clone(), call.clone());
    let mut second_image = image.clone();
    let before = image.clone();
    let outcome = proved::act(&rings.proved, image, &mut ours);
    let wanted = card::act(rings.kind, &rings.second, &mut second_image, &mut theirs);
    assert_eq!(outcome, Outcome::of_card(wanted), "{call:?}");
    assert!(*image == second_image, "image after {call:?}");
    assert_eq!(ours, theirs, "buffer");
    compare_walks(rings.kind, image);
    if wanted.is_err() {
        assert!(*image == before && ours == *call, "a refusal changed something: {call:?}");
    }
    outcome.number
}

/// 2,000 lists of 20 calls, on lawful and spoiled images, with rings of 1 to 8 keys (now and then 0 or 9), of every cipher.
#[test]
fn lists_agree() {
    let mut seen = BTreeMap::new();
    for (place, which) in ALL.into_iter().enumerate() {
        let mut random = Random(seed(600 + place as u64));
        for list in 0..667 * times() {
            let size = if random.once_in(25) { [0, 9][random.below(2)] } else { 1 + list % 8 };
            let rings = rings(which, size, &mut random);
            let n = 1 + random.below(5);
            let mut image = random.bytes(2 + rings.kind.bytes() + RECORD * n);
            if !random.once_in(6) {
                let mut format = Call::Format { number: number(&rings, n, &mut random) };
                let _ = card::act(rings.kind, &rings.second, &mut image, &mut format);
            }
            let spoiled = random.once_in(3);
            for _ in 0..20 {
                if spoiled && random.once_in(4) {
                    spoil(&mut image, rings.kind, n, &mut random);
                }
                let call = call(&rings, n, &mut random);
                *seen.entry(compare(&rings, &mut image, &call)).or_insert(0) += 1;
            }
            compare(&rings, &mut image, &Call::Open);
        }
    }
    println!("outcomes seen: {seen:?}");
    for number in [0, 1, 2, 3, 4, 5, 6, 7, 8, 9, 10, 13] {
        assert!(seen.contains_key(&number), "no call came out as {number}");
    }
}

/// Every length of an image from 0 to 1,100 bytes, of a text, a buffer and a card number.
#[test]
fn lengths_agree() {
    for (place, which) in ALL.into_iter().enumerate() {
        let mut random = Random(seed(700 + place as u64));
        let rings = rings(which, 2, &mut random);
        let mut card = vec![0; 2 + rings.kind.bytes() + 2 * RECORD];
        compare(&rings, &mut card, &Call::Format { number: random.bytes(rings.kind.bytes()) });
        compare(&rings, &mut card, &Call::Write { sector: 1, key: 1, text: random.bytes(TEXT) });
        for length in 0..=1_100 {
            let mut image = card.clone();
            image.resize(length, 0);
            for call in [Call::Open, Call::Erase { sector: 0 }, Call::Format { number: vec![7; rings.kind.bytes()] }, Call::Rekey { sector: 0, key: 1 }] {
                compare(&rings, &mut image.clone(), &call);
            }
            let bytes = random.bytes(length);
            compare(&rings, &mut card.clone(), &Call::Write { sector: 0, key: 0, text: bytes.clone() });
            compare(&rings, &mut card.clone(), &Call::Read { sector: 1, buffer: bytes.clone() });
            compare(&rings, &mut card.clone(), &Call::Format { number: bytes });
        }
    }
}
