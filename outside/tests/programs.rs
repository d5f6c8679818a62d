//! The programs as a user runs them, against the second implementation: the manifest on random images, cardlock on random scripts.
use outside::both::{ALL, Both, Which};
use outside::proved::Keyed;
use outside::random::{Random, seed, times};
use outside::second::card::{self, Call, Layer, RECORD, TEXT};
use outside::second::cipher::Cipher;
use outside::second::field::{SHORT, WIDE};
use outside::second::manifest::manifest;
use std::fs;
use std::io::Write;
use std::path::{Path, PathBuf};
use std::process::{Command, Output, Stdio};

fn program(name: &str) -> PathBuf {
    Path::new(env!("CARGO_MANIFEST_DIR")).join("../target/bin").join(name)
}

fn run(name: &str, args: &[&str], room: &Path, input: &[u8]) -> Output {
    let mut child = Command::new(program(name)).args(args).current_dir(room).stdin(Stdio::piped()).stdout(Stdio::piped()).stderr(Stdio::piped()).spawn().unwrap();
    let mut stdin = child.stdin.take().unwrap();
    let bytes = input.to_vec();
    // the program may stop reading early
    let writer = std::thread::spawn(move || drop(stdin.write_all(&bytes)));
    let output = child.wait_with_output().unwrap();
    writer.join().unwrap();
    output
}

fn room(name: &str) -> PathBuf {
    let room = std::env::temp_dir().join(format!("outside-{}-{name}", std::process::id()));
    fs::create_dir_all(&room).unwrap();
    room
}

#[test]
fn manifests_agree() {
    let room = room("manifest");
    let mut random = Random(seed(800));
    for i in 0..150 * times() {
        let n = if i == 0 { 127 } else { 1 + random.below(6) };
        let mut image = vec![0; 2 + 16 + RECORD * n];
        let ring: Vec<Box<dyn Cipher>> = (0..8).map(|_| Both::random(Which::Aes, &mut random).second).collect();
        card::act(WIDE, &ring, &mut image, &mut Call::Format { number: random.bytes(16) }).unwrap();
        for _ in 0..random.below(6) {
            let (sector, key) = (random.below(n), random.below(8));
            let _ = card::act(WIDE, &ring, &mut image, &mut Call::Write { sector, key, text: random.bytes(TEXT) });
        }
        if random.once_in(2) {
            let at = 18 + RECORD * random.below(n) + random.below(4);
            image[at] ^= random.word() as u8;
        }
        if random.once_in(6) {
            let length = [0, 1, 17, 18, 531, image.len() - 1, image.len() + 1, 65_536, 65_537, 70_000][random.below(10)];
            image.resize(length, 0);
        }
        let output = run("manifest", &[], &room, &image);
        assert_eq!(String::from_utf8(output.stdout).unwrap(), manifest(&image));
        assert!(output.status.success());
    }
    fs::remove_dir_all(room).unwrap();
}

fn digits(bytes: &[u8]) -> String {
    bytes.iter().map(|b| format!("{b:02x}")).collect()
}

fn sentence(number: u32) -> &'static str {
    match number {
        1 => "the ring has no cipher or more than eight",
        2 => "the image is not a header and 1 to 65535 records long",
        3 => "the image does not begin with 43 hex and its kind's code",
        4 => "the card has no sector of this number",
        5 => "the key number is not below the ring's size",
        6 => "the text or the reading buffer is not 512 bytes long",
        7 => "the mark is neither a blank one nor that of a key on the ring",
        8 => "a record marked blank holds a byte other than zero",
        9 => "the sector is blank",
        10 => "the tweak or the card number is not one block long",
        _ => "there are two blocks or more and the tweak enciphers to zero",
    }
}

/// The line that tells a call's outcome.
fn told(line: usize, call: &str, result: Result<(), card::Fault>) -> String {
    match result {
        Ok(()) => format!("line {line}: {call}: accepted\n"),
        Err(fault) => {
            let layer = if fault.layer == Layer::Sealing { "sealing" } else { "card" };
            let sector = fault.sector.map(|s| format!(" sector {s}")).unwrap_or_default();
            let key = fault.key.map(|k| format!(" key {k}")).unwrap_or_default();
            format!("line {line}: {call}: refused {} {layer}{sector}{key}: {}\n", fault.number, sentence(fault.number))
        }
    }
}

#[test]
fn scripts_agree() {
    let room = room("cardlock");
    for (place, which) in ALL.into_iter().enumerate() {
        let mut random = Random(seed(900 + place as u64));
        let kind = if which == Which::Aes { WIDE } else { SHORT };
        for run_number in 0..25 * times() {
            let size = 1 + run_number % 8;
            let both: Vec<Both> = (0..size).map(|_| Both::random(which, &mut random)).collect();
            let name = match which {
                Which::Aes => "aes",
                Which::Xtea => "xtea",
                Which::Whitened => "whitened",
            };
            let mut ring_text = format!("# a ring\n{name}\n");
            for b in &both {
                ring_text += &match b.proved {
                    Keyed::Aes(k) | Keyed::Xtea(k) => digits(&k),
                    Keyed::Whitened(k) => digits(&k),
                };
                ring_text += "\n\n";
            }
            let dead = both[random.below(size)].dead_tweak();
            let ring: Vec<Box<dyn Cipher>> = both.into_iter().map(|b| b.second).collect();
            let n = 1 + random.below(4);
            let mut image = vec![0; 2 + kind.bytes() + RECORD * n];
            let mut script = String::new();
            let mut expected = String::new();
            let mut line = 0;
            let mut kept: Vec<(String, Vec<u8>)> = Vec::new();
            let fresh = random.once_in(2);
            if !fresh {
                card::act(kind, &ring, &mut image, &mut Call::Format { number: kind.store(kind.load(&dead) ^ random.below(n) as u128) }).unwrap();
                fs::write(room.join("card"), &image).unwrap();
            } else {
                let _ = fs::remove_file(room.join("card"));
            }
            let before = image.clone();
            for step in 0..12 {
                let pick = if step == 0 && fresh { 0 } else { random.below(14) };
                let (sector, key, other) = (random.below(n + 1), random.below(size + 1), random.below(n + 1));
                let (mut call, words, shown) = match pick {
                    0 => {
                        let length = if step > 0 && random.once_in(3) { 5 } else { kind.bytes() };
                        let number = random.bytes(length);
                        let words = format!("format {n} {}", digits(&number));
                        (Call::Format { number }, words, format!("format {n}"))
                    }
                    1 => (Call::Open, "open".into(), "open".into()),
                    2..=5 => {
                        let length = if random.once_in(8) { 3 } else { TEXT };
                        let text = random.bytes(length);
                        let words = if random.once_in(2) {
                            let file = format!("text{step}");
                            fs::write(room.join(&file), &text).unwrap();
                            format!("write {sector} {key} @{file}")
                        } else {
                            format!("write {sector} {key} {}", digits(&text))
                        };
                        (Call::Write { sector, key, text }, words, format!("write {sector} {key}"))
                    }
                    6..=8 => {
                        let how = ["", " show", " @read"][random.below(3)];
                        let how = if how == " @read" { format!(" @read{step}") } else { how.to_string() };
                        (Call::Read { sector, buffer: vec![0; TEXT] }, format!("read {sector}{how}"), format!("read {sector}"))
                    }
                    9 | 10 => (Call::Rekey { sector, key }, format!("rekey {sector} {key}"), format!("rekey {sector} {key}")),
                    11 | 12 => (Call::Copy { from: sector, to: other }, format!("copy {sector} {other}"), format!("copy {sector} {other}")),
                    _ => (Call::Erase { sector }, format!("erase {sector}"), format!("erase {sector}")),
                };
                if random.once_in(4) {
                    script += "\n# a remark\n";
                    line += 2;
                }
                line += 1;
                script += &format!("  {words} \n");
                let result = card::act(kind, &ring, &mut image, &mut call);
                expected += &told(line, &shown, result);
                if let (Ok(()), Call::Read { buffer, .. }) = (result, &call) {
                    if words.ends_with(" show") {
                        expected += &format!("{}\n", digits(buffer));
                    }
                    if let Some((_, file)) = words.split_once('@') {
                        kept.push((file.to_string(), buffer.clone()));
                    }
                }
            }
            expected += if image == before { "card: unchanged\n" } else { "card: written\n" };
            fs::write(room.join("ring"), ring_text).unwrap();
            fs::write(room.join("script"), &script).unwrap();
            let output = run("cardlock", &["card", "ring", "script"], &room, b"");
            assert_eq!(String::from_utf8(output.stdout).unwrap(), expected, "{script} {}", String::from_utf8_lossy(&output.stderr));
            assert!(output.status.success());
            if image == before && fresh {
                assert!(!room.join("card").exists());
            } else {
                assert!(fs::read(room.join("card")).unwrap() == image, "image after {script}");
            }
            assert!(!room.join("card.new").exists());
            for (file, text) in kept {
                assert!(fs::read(room.join(file)).unwrap() == text);
            }
        }
    }
    fs::remove_dir_all(room).unwrap();
}
