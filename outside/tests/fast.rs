//! The fast version that the benchmark measures against does the same as the second implementation.
use outside::both::{ALL, Both};
use outside::fast;
use outside::proved::Keyed;
use outside::random::{Random, seed};
use outside::second::field::{SHORT, WIDE};
use outside::second::mode;

#[test]
fn fast_agrees() {
    let mut random = Random(seed(500));
    for _ in 0..300 {
        let (a, b) = (WIDE.load(&random.bytes(16)), WIDE.load(&random.bytes(16)));
        assert_eq!(fast::wide::times(a, b), WIDE.times(a, b));
        assert_eq!(fast::wide::inverse(a), WIDE.inverse(a));
        let (a, b) = (random.word(), random.word());
        assert_eq!(u128::from(fast::short::times(a, b)), SHORT.times(a.into(), b.into()));
        assert_eq!(fast::short::inverse(a).map(u128::from), SHORT.inverse(a.into()));
    }
    for n in 0..40 {
        assert_eq!(fast::wide::inverse(n), WIDE.inverse(n));
        assert_eq!(fast::short::inverse(n as u64).map(u128::from), SHORT.inverse(n));
    }
    for which in ALL {
        for m in 3..=64 {
            let both = Both::random(which, &mut random);
            let b = both.kind().bytes();
            let (tweak, text) = (random.bytes(b), random.bytes(m * b));
            let sealed = mode::seal(&both.second, &tweak, &text).unwrap();
            let mut buffer = text.clone();
            match &both.proved {
                Keyed::Aes(key) => fast::mode::seal(&fast::Aes::new(key), &tweak, &mut buffer).unwrap(),
                Keyed::Xtea(key) => fast::mode::seal(&fast::Xtea::new(key, 0, 0), &tweak, &mut buffer).unwrap(),
                Keyed::Whitened(key) => fast::mode::seal(&whitened(key), &tweak, &mut buffer).unwrap(),
            }
            assert_eq!(buffer, sealed, "{which:?} {m}");
            match &both.proved {
                Keyed::Aes(key) => fast::mode::unseal(&fast::Aes::new(key), &tweak, &mut buffer).unwrap(),
                Keyed::Xtea(key) => fast::mode::unseal(&fast::Xtea::new(key, 0, 0), &tweak, &mut buffer).unwrap(),
                Keyed::Whitened(key) => fast::mode::unseal(&whitened(key), &tweak, &mut buffer).unwrap(),
            }
            assert_eq!(buffer, text, "{which:?} {m}");
        }
    }
}

fn whitened(key: &[u8; 32]) -> fast::Xtea {
    let word = |at: usize| u64::from_be_bytes(key[at..at + 8].try_into().unwrap());
    fast::Xtea::new(key[..16].try_into().unwrap(), word(16), word(24))
}
