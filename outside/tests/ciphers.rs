//! Blocks by the proved ciphers and by the second ones: 10,000 random keys and blocks for each cipher.
use outside::both::{ALL, Both};
use outside::random::{Random, seed, times};

#[test]
fn ciphers_agree() {
    for (place, which) in ALL.into_iter().enumerate() {
        let mut random = Random(seed(100 + place as u64));
        for _ in 0..10_000 * times() {
            let both = Both::random(which, &mut random);
            let kind = both.kind();
            let text = random.bytes(kind.bytes());
            let mut block = text.clone();
            both.proved.encrypt(&mut block);
            assert_eq!(block, kind.store(both.second.encrypt(kind.load(&text))), "{:?} {text:?}", both.proved);
            let sealed = random.bytes(kind.bytes());
            block.copy_from_slice(&sealed);
            both.proved.decrypt(&mut block);
            assert_eq!(block, kind.store(both.second.decrypt(kind.load(&sealed))), "{:?} {sealed:?}", both.proved);
        }
    }
}
