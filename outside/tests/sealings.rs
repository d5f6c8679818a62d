//! Direct sealing and unsealing by the proved library and by the second implementation.
use outside::both::{ALL, Both};
use outside::proved::Outcome;
use outside::random::{Random, seed, times};
use outside::second::mode;

/// Seals and unseals one buffer by both, and compares outcomes and every byte.
fn compare(both: &Both, tweak: &[u8], text: &[u8]) {
    let mut buffer = text.to_vec();
    let outcome = both.proved.seal(tweak, &mut buffer);
    let wanted = mode::seal(&both.second, tweak, text);
    assert_eq!(outcome, Outcome::of_sealing(wanted.as_ref().map(|_| ()).map_err(|n| *n)), "seal {:?} {tweak:?} {text:?}", both.proved);
    assert_eq!(buffer, wanted.unwrap_or(text.to_vec()), "seal {:?} {tweak:?} {text:?}", both.proved);
    let mut buffer = text.to_vec();
    let outcome = both.proved.unseal(tweak, &mut buffer);
    let wanted = mode::unseal(&both.second, tweak, text);
    assert_eq!(outcome, Outcome::of_sealing(wanted.as_ref().map(|_| ()).map_err(|n| *n)), "unseal {:?} {tweak:?} {text:?}", both.proved);
    assert_eq!(buffer, wanted.unwrap_or(text.to_vec()), "unseal {:?} {tweak:?} {text:?}", both.proved);
}

/// Every count from 1 to 64, every cipher: 32 keys, tweaks and texts each, which are 2,048 for a cipher and 6,144 in all, both ways.
#[test]
fn sealings_agree() {
    for (place, which) in ALL.into_iter().enumerate() {
        let mut random = Random(seed(200 + place as u64));
        for m in 1..=64 {
            for _ in 0..32 * times() {
                let both = Both::random(which, &mut random);
                let tweak = random.bytes(both.kind().bytes());
                let text = random.bytes(m * both.kind().bytes());
                compare(&both, &tweak, &text);
            }
        }
    }
}

/// The one dead tweak of a cipher at every count: accepted at one block, and refused by 13 from two up.
#[test]
fn dead_tweaks_agree() {
    for (place, which) in ALL.into_iter().enumerate() {
        let mut random = Random(seed(300 + place as u64));
        for m in 1..=65 {
            for _ in 0..2 * times() {
                let both = Both::random(which, &mut random);
                let tweak = both.dead_tweak();
                let text = random.bytes(m * both.kind().bytes());
                let expected = if m == 1 { Ok(()) } else if m <= 64 { Err(13) } else { Err(12) };
                assert_eq!(both.proved.seal(&tweak, &mut text.clone()), Outcome::of_sealing(expected));
                compare(&both, &tweak, &text);
            }
        }
    }
}

/// Every length from 0 to 1,100 bytes, with tweaks of the right length and of others; refusals 10, 11 and 12 in their order.
#[test]
fn lengths_agree() {
    for (place, which) in ALL.into_iter().enumerate() {
        let mut random = Random(seed(400 + place as u64));
        for length in 0..=1_100 {
            let both = Both::random(which, &mut random);
            let text = random.bytes(length);
            let right = random.bytes(both.kind().bytes());
            compare(&both, &right, &text);
            let other_length = random.below(33);
            let other = random.bytes(other_length);
            compare(&both, &other, &text);
        }
        let both = Both::random(which, &mut random);
        for length in 0..=1_100 {
            let tweak = random.bytes(length);
            compare(&both, &tweak, &random.bytes(64));
        }
    }
}
