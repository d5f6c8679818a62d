//! The proved library against the same algorithms in plain Rust, in one process: the two are timed in turn, and the median of the ratios is told.
//! Run by `.ci/benchmark`; it decides nothing.
use outside::both::{Both, Which};
use outside::fast;
use outside::proved::{self, Keyed, Ring};
use outside::random::Random;
use outside::second::card::{Call, RECORD, TEXT};
use std::hint::black_box;
use std::time::Instant;

/// Nanoseconds for one of `count` turns.
fn time(count: usize, mut f: impl FnMut()) -> f64 {
    let start = Instant::now();
    for _ in 0..count {
        f();
    }
    start.elapsed().as_nanos() as f64 / count as f64
}

fn median(mut xs: Vec<f64>) -> f64 {
    xs.sort_by(f64::total_cmp);
    xs[xs.len() / 2]
}

fn row(name: &str, count: usize, mut ours: impl FnMut(), mut plain: impl FnMut()) {
    let (mut a, mut b, mut ratios) = (Vec::new(), Vec::new(), Vec::new());
    time(count, &mut ours);
    time(count, &mut plain);
    for _ in 0..31 {
        let (x, y) = (time(count, &mut ours), time(count, &mut plain));
        a.push(x);
        b.push(y);
        ratios.push(x / y);
    }
    println!("| {name} | {} | {} | {:.2} |", nanoseconds(median(a)), nanoseconds(median(b)), median(ratios));
}

fn nanoseconds(t: f64) -> String {
    if t < 10_000.0 { format!("{t:.0} ns") } else { format!("{:.1} µs", t / 1000.0) }
}

fn main() {
    let mut random = Random(1);
    println!("| what | proved | plain Rust | ratio |");
    println!("| --- | --- | --- | --- |");

    let (a, mut b) = (random.array::<16>(), random.array::<16>());
    let (x, mut y) = (u128::from_be_bytes(a), u128::from_be_bytes(b));
    row("product, wide", 20_000, || proved::wide_product(black_box(&a), &mut b), || y = black_box(fast::wide::times(black_box(x), y)));
    let (a, mut b) = (random.array::<8>(), random.array::<8>());
    let (x, mut y) = (u64::from_be_bytes(a), u64::from_be_bytes(b));
    row("product, short", 20_000, || proved::short_product(black_box(&a), &mut b), || y = black_box(fast::short::times(black_box(x), y)));
    let mut a = random.array::<16>();
    let mut x = u128::from_be_bytes(a);
    row("inverse, wide", 5_000, || assert!(proved::wide_inverse(black_box(&mut a))), || x = black_box(fast::wide::inverse(black_box(x)).unwrap()));
    let mut a = random.array::<8>();
    let mut x = u64::from_be_bytes(a);
    row("inverse, short", 5_000, || assert!(proved::short_inverse(black_box(&mut a))), || x = black_box(fast::short::inverse(black_box(x)).unwrap()));

    // a cipher block with its key schedule, as the library's call makes it
    for which in [Which::Aes, Which::Xtea] {
        let both = Both::random(which, &mut random);
        let mut block = random.bytes(both.kind().bytes());
        match both.proved {
            Keyed::Aes(key) => {
                let mut plain: [u8; 16] = block.clone().try_into().unwrap();
                row("AES-128: key and one block, encrypted", 5_000, || both.proved.encrypt(black_box(&mut block)), || fast::Aes::new(black_box(&key)).encrypt(black_box(&mut plain)));
                let mut block = random.bytes(16);
                row("AES-128: key and one block, decrypted", 5_000, || both.proved.decrypt(black_box(&mut block)), || fast::Aes::new(black_box(&key)).decrypt(black_box(&mut plain)));
            }
            Keyed::Xtea(key) => {
                let mut plain = random.word();
                row("XTEA: key and one block, encrypted", 5_000, || both.proved.encrypt(black_box(&mut block)), || plain = black_box(fast::Xtea::new(black_box(&key), 0, 0).encrypt(plain)));
                let mut block = random.bytes(8);
                row("XTEA: key and one block, decrypted", 5_000, || both.proved.decrypt(black_box(&mut block)), || plain = black_box(fast::Xtea::new(black_box(&key), 0, 0).decrypt(plain)));
            }
            Keyed::Whitened(_) => {}
        }
    }

    let key = random.array::<16>();
    let aes = Keyed::Aes(key);
    let (tweak, mut ours, mut plain) = (random.bytes(16), random.bytes(TEXT), random.bytes(TEXT));
    row("512 bytes sealed, wide, AES-128", 300, || assert_eq!(aes.seal(&tweak, &mut ours).number, 0), || fast::mode::seal(&fast::Aes::new(black_box(&key)), &tweak, &mut plain).unwrap());
    row("512 bytes unsealed, wide, AES-128", 300, || assert_eq!(aes.unseal(&tweak, &mut ours).number, 0), || fast::mode::unseal(&fast::Aes::new(black_box(&key)), &tweak, &mut plain).unwrap());
    let xtea = Keyed::Xtea(key);
    let tweak8 = random.bytes(8);
    row("512 bytes sealed, short, XTEA", 300, || assert_eq!(xtea.seal(&tweak8, &mut ours).number, 0), || fast::mode::seal(&fast::Xtea::new(black_box(&key), 0, 0), &tweak8, &mut plain).unwrap());
    row("512 bytes unsealed, short, XTEA", 300, || assert_eq!(xtea.unseal(&tweak8, &mut ours).number, 0), || fast::mode::unseal(&fast::Xtea::new(black_box(&key), 0, 0), &tweak8, &mut plain).unwrap());

    // a card of 64 sectors, all sealed
    let n = 64;
    let keys = vec![random.array::<16>(), random.array::<16>()];
    let ring = Ring::Aes(keys.clone());
    let mut image = vec![0; 18 + RECORD * n];
    assert_eq!(proved::act(&ring, &mut image, &mut Call::Format { number: random.bytes(16) }).number, 0);
    for sector in 0..n {
        assert_eq!(proved::act(&ring, &mut image, &mut Call::Write { sector, key: 0, text: random.bytes(TEXT) }).number, 0);
    }
    let mut twin = image.clone();
    let number = u128::from_be_bytes(image[2..18].try_into().unwrap());
    let ciphers: Vec<fast::Aes> = keys.iter().map(fast::Aes::new).collect();
    row(
        "open of a card of 64 sealed sectors",
        20,
        || assert_eq!(proved::act(&ring, black_box(&mut image), &mut Call::Open).number, 0),
        || {
            for s in 0..n {
                let record = &twin[18 + RECORD * s..18 + RECORD * (s + 1)];
                assert!(record[0] == 0x4b && (record[1] as usize) < ciphers.len());
                let tweak = (number ^ s as u128).to_be_bytes();
                let mut r = tweak;
                ciphers[record[1] as usize].encrypt(&mut r);
                assert!(black_box(r) != [0; 16]);
            }
        },
    );
    let image_cell = std::cell::RefCell::new(image);
    let (mut to_ours, mut to_plain) = (1usize, 1usize);
    row(
        "rekey of every sector of that card",
        3,
        || {
            let mut image = image_cell.borrow_mut();
            for sector in 0..n {
                assert_eq!(proved::act(&ring, &mut image, &mut Call::Rekey { sector, key: to_ours }).number, 0);
            }
            to_ours = 1 - to_ours;
        },
        || {
            let ciphers: Vec<fast::Aes> = keys.iter().map(fast::Aes::new).collect();
            for s in 0..n {
                let record = &mut twin[18 + RECORD * s..18 + RECORD * (s + 1)];
                let tweak = (number ^ s as u128).to_be_bytes();
                fast::mode::unseal(&ciphers[record[1] as usize], &tweak, &mut record[2..]).unwrap();
                fast::mode::seal(&ciphers[to_plain], &tweak, &mut record[2..]).unwrap();
                record[1] = to_plain as u8;
            }
            to_plain = 1 - to_plain;
        },
    );
}
