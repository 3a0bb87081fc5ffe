//! SHA-1 of texts, against the reference and against programs from elsewhere.

use std::fs;
use std::path::{Path, PathBuf};
use std::process::Command;

use balzenoh::{hex, sha1};

use crate::support::bench::Bench;
use crate::support::call::Call;
use crate::support::plan;
use crate::support::random::Random;

/// Where a block of 64 bytes ends, where the length still fits behind a text, and the longest text.
const EDGES: [usize; 12] = [1_079, 1_080, 1_087, 1_088, 4_095, 4_096, 63_991, 63_992, 63_999, 64_000, 64_031, 64_032];

/// A text: mostly random bytes, sometimes bytes of ones, with which sums carry, or of zeros.
fn text(random: &mut Random, length: usize) -> Vec<u8> {
    match random.below(4) {
        0 => vec![random.pick(&[0x00, 0xFF, 0x80]); length],
        _ => random.bytes(length),
    }
}

#[test]
fn every_length_with_every_room() {
    let mut bench = Bench::new(plan::DIGESTS);
    for length in (0..=600).chain(EDGES) {
        let text = text(&mut bench.random, length);
        for room in 0..=40 {
            let number = bench.check(&Call::Sha1 { text: &text, room }).number;
            assert_eq!(number, if room < 20 { 5 } else { 0 });
        }
    }
    for length in [64_033, 64_034, 64_095, 64_096, 65_535, 65_536, 128_065, 1_000_000] {
        let text = bench.random.bytes(length);
        for room in [0, 19, 20, 21, 40] {
            bench.refuses(3, &Call::Sha1 { text: &text, room });
        }
    }
    bench.finish();
}

/// Each bit of the text counts, and the length does where the bytes behind it are zeros.
#[test]
fn every_bit_counts() {
    let mut random = Random::new(71);
    for length in [1, 20, 55, 56, 64, 119, 120, 128, 200] {
        let text = random.bytes(length);
        let digest = sha1(&text).expect("a short text");
        for bit in 0..8 * length {
            let mut changed = text.clone();
            changed[bit / 8] ^= 0x80 >> (bit % 8);
            assert_ne!(sha1(&changed), Ok(digest), "bit {bit} of {length} bytes");
        }
        assert_ne!(sha1(&[&text[..], &[0]].concat()), Ok(digest));
    }
}

/// A folder with texts, which goes away with the value.
struct Texts {
    folder: PathBuf,
    texts: Vec<Vec<u8>>,
}

impl Texts {
    fn new(random: &mut Random) -> Self {
        let folder = Path::new(env!("CARGO_TARGET_TMPDIR")).join(format!("texts-{}", std::process::id()));
        fs::create_dir_all(&folder).expect("a folder for the test");
        let texts: Vec<_> = (0..=600).chain(EDGES).map(|length| text(random, length)).collect();
        for (index, text) in texts.iter().enumerate() {
            fs::write(folder.join(index.to_string()), text).expect("a file for the test");
        }
        Self { folder, texts }
    }

    /// The digests as a program prints them, a line for each text; nothing where there is no such program.
    fn digests(&self, program: &str, options: &[&str]) -> Option<String> {
        let names = (0..self.texts.len()).map(|index| index.to_string());
        let output = Command::new(program).args(options).args(names).current_dir(&self.folder).output().ok()?;
        assert!(output.status.success(), "{program} failed");
        Some(String::from_utf8(output.stdout).expect("text"))
    }
}

impl Drop for Texts {
    fn drop(&mut self) {
        // What stays behind lies in the build's folder.
        let _ = fs::remove_dir_all(&self.folder);
    }
}

#[test]
fn other_programs_give_the_same_digests() {
    let texts = Texts::new(&mut Random::new(72));
    for (program, options) in [("sha1sum", &[][..]), ("openssl", &["dgst", "-sha1", "-r"])] {
        let Some(printed) = texts.digests(program, options) else {
            println!("no {program} program here: skipped");
            continue;
        };
        let digests: Vec<_> = printed.lines().map(|line| line.split(' ').next().expect("a digest").to_uppercase()).collect();
        assert_eq!(digests.len(), texts.texts.len());
        for (text, digest) in texts.texts.iter().zip(digests) {
            let given = sha1(text).expect("a text within the limit");
            assert_eq!(hex::encode(&given), digest, "{program}, {} bytes", text.len());
        }
    }
}
