//! The second implementation against published vectors and worked cases.
use outside::second::aes::Aes;
use outside::second::cipher::{Cipher, Glass, Whitened};
use outside::second::field::{SHORT, WIDE, coefficients};
use outside::second::mode::{self, begin, first_pass, second_pass, third_pass};
use outside::second::xtea::Xtea;

fn hex(s: &str) -> Vec<u8> {
    let digits: Vec<u32> = s.chars().filter(|c| !c.is_whitespace()).map(|c| c.to_digit(16).unwrap()).collect();
    digits.chunks(2).map(|d| (d[0] * 16 + d[1]) as u8).collect()
}

fn array(s: &str) -> [u8; 16] {
    hex(s).try_into().unwrap()
}

#[test]
fn aes_published() {
    // FIPS 197: the example of appendix B, and C.1
    let aes = Aes::new(&array("2b7e151628aed2a6abf7158809cf4f3c"));
    assert_eq!(aes.encrypt(&array("3243f6a8885a308d313198a2e0370734")), array("3925841d02dc09fbdc118597196a0b32"));
    assert_eq!(aes.decrypt(&array("3925841d02dc09fbdc118597196a0b32")), array("3243f6a8885a308d313198a2e0370734"));
    // appendix A.1: the first and the last expanded round keys
    let keys = aes.expanded();
    assert_eq!(keys.len(), 176);
    assert_eq!(keys[16..32], hex("a0fafe1788542cb123a339392a6c7605"));
    assert_eq!(keys[160..176], hex("d014f9a8c9ee2589e13f0cc8b6630ca6"));
    let aes = Aes::new(&array("000102030405060708090a0b0c0d0e0f"));
    assert_eq!(aes.encrypt(&array("00112233445566778899aabbccddeeff")), array("69c4e0d86a7b0430d8cdb78070b4c55a"));
    assert_eq!(aes.decrypt(&array("69c4e0d86a7b0430d8cdb78070b4c55a")), array("00112233445566778899aabbccddeeff"));
}

#[test]
fn xtea_published() {
    let counted = Xtea::new(&array("000102030405060708090a0b0c0d0e0f"));
    let zero = Xtea::new(&[0; 16]);
    for (cipher, text, sealed) in [
        (&counted, 0x4142434445464748, 0x497df3d072612cb5),
        (&counted, 0x4141414141414141, 0xe78f2d13744341d8),
        (&counted, 0x5a5b6e278948d77f, 0x4141414141414141),
        (&zero, 0x4142434445464748, 0xa0390589f8b8efa5),
        (&zero, 0x4141414141414141, 0xed23375a821a8c2d),
        (&zero, 0x70e1225d6e4e7655, 0x4141414141414141),
    ] {
        assert_eq!(cipher.encrypt(text), sealed);
        assert_eq!(cipher.decrypt(sealed), text);
    }
}

#[test]
fn fields() {
    for (kind, low, inverse_of_x) in [(WIDE, 0x87, (1 << 127) | 0x43), (SHORT, 0x1b, (1 << 63) | 0x0d)] {
        assert_eq!(kind.times(2, 1 << (kind.bits - 1)), low);
        assert_eq!(kind.inverse(2), Some(inverse_of_x));
        assert_eq!(kind.inverse(0), None);
        for a in [1, 2, 3, 0xdead_beef_1234_5678, u128::from(u64::MAX)] {
            assert_eq!(kind.times(a, kind.inverse(a).unwrap()), 1);
        }
    }
}

#[test]
fn mask_coefficients() {
    assert_eq!(coefficients(3), [2, 4, 6]);
    assert_eq!(coefficients(4), [3, 6, 12, 9]);
    assert_eq!(coefficients(5), [3, 6, 12, 24, 17]);
    assert_eq!(coefficients(7), [3, 6, 12, 9, 16, 32, 48]);
    for m in 3..=64 {
        let p = coefficients(m);
        assert_eq!(p.len(), m as usize);
        assert_eq!(p.iter().fold(0, |s, c| s ^ c), 0);
        for (i, c) in p.iter().enumerate() {
            assert!(*c < 1 << 64 && !p[..i].contains(c));
        }
    }
}

#[test]
fn glass_cases() {
    for kind in [WIDE, SHORT] {
        let glass = Glass(kind);
        let seal = |tweak: u128, text: &[u128]| mode::seal(&glass, &kind.store(tweak), &mode::bytes(&glass, text)).map(|s| mode::blocks(&glass, &s));
        assert_eq!(seal(2, &[0]), Ok(vec![15]));
        assert_eq!(seal(0, &[0]), Ok(vec![5]));
        assert_eq!(seal(0, &[0, 0]), Err(13));
        assert_eq!(seal(1, &[0, 0]), Ok(vec![5, 5]));
        assert_eq!(seal(2, &[1, 0, 0]), Ok(vec![7, 24, 40]));
        assert_eq!(seal(1, &[0; 64]).map(|s| s.len()), Ok(64));
        assert_eq!(seal(1, &[0; 65]), Err(12));
        let begun = begin(&glass, &kind.store(1), 3 * kind.bytes()).unwrap_or_else(|n| panic!("refused {n}"));
        let pp = first_pass(&glass, &begun, &[0, 0, 0]);
        assert_eq!(pp, [0, 0, 0]);
        let ccc = second_pass(&glass, &begun, &pp);
        assert_eq!(ccc, [4, 8, 12]);
        assert_eq!(third_pass(&glass, &begun, &ccc), [12, 24, 20]);
    }
}

#[test]
fn there_and_back() {
    let aes = Aes::new(&[7; 16]);
    let whitened = Whitened { inner: Xtea::new(&[9; 16]), a: 0x0123_4567_89ab_cdef, c: 0xfedc_ba98_7654_3210 };
    for m in 1..=64 {
        for cipher in [&aes as &dyn Cipher, &whitened] {
            let b = cipher.kind().bytes();
            let text: Vec<u8> = (0..m * b).map(|i| (i * i + m) as u8).collect();
            let sealed = mode::seal(cipher, &vec![3; b], &text).unwrap();
            assert_ne!(sealed, text);
            assert_eq!(mode::unseal(cipher, &vec![3; b], &sealed).unwrap(), text);
        }
    }
}
