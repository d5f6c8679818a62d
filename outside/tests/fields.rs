//! Products and inverses by the proved library and by the second implementation.
use outside::proved;
use outside::random::{Random, seed, times};
use outside::second::field::{SHORT, WIDE};

#[test]
fn fields_agree() {
    let mut random = Random(seed(50));
    let edges: [u128; 8] = [0, 1, 2, 3, 0x87, 1 << 63, 1 << 127, u128::MAX];
    for i in 0..5_000 * times() {
        let pick = |random: &mut Random| if i < 200 { edges[random.below(8)] } else { u128::from_be_bytes(random.array()) };
        let (a, b) = (pick(&mut random), pick(&mut random));
        let mut bytes = b.to_be_bytes();
        proved::wide_product(&a.to_be_bytes(), &mut bytes);
        assert_eq!(u128::from_be_bytes(bytes), WIDE.times(a, b));
        let mut bytes = a.to_be_bytes();
        let there = proved::wide_inverse(&mut bytes);
        assert_eq!((there, u128::from_be_bytes(bytes)), (a != 0, WIDE.inverse(a).unwrap_or(0)));
        let (a, b) = (a as u64, b as u64);
        let mut bytes = b.to_be_bytes();
        proved::short_product(&a.to_be_bytes(), &mut bytes);
        assert_eq!(u128::from(u64::from_be_bytes(bytes)), SHORT.times(a.into(), b.into()));
        let mut bytes = a.to_be_bytes();
        let there = proved::short_inverse(&mut bytes);
        assert_eq!((there, u128::from(u64::from_be_bytes(bytes))), (a != 0, SHORT.inverse(a.into()).unwrap_or(0)));
    }
}
