//! Document 01's vector program, `crates/vector`, on its published input, on other ones, and on inputs of other lengths.

use std::io::Write;
use std::path::{Path, PathBuf};
use std::process::{Command, Stdio};
use std::sync::OnceLock;

use balzenoh::hex;
use support::finish::Finish;
use support::fips197::Fips197;
use support::mode::Mode;
use support::pairs;
use support::random::Random;

/// What the other tests use of these is not used here.
#[allow(dead_code)]
mod support {
    pub mod cipher;
    pub mod finish;
    pub mod fips197;
    pub mod mode;
    pub mod pairs;
    pub mod random;
    pub mod sha1;
}

const PUBLISHED: &str = "000102030405060708090A0B0C0D0E0F0123456789ABCDEF0123456789ABCDEF00112233445566778899AABBCCDDEEFF";
const PUBLISHED_LINES: &str = "\
R1 FDED29920913A3DA8C9ECA2F0FD434AA
T1 C31FDB743AA199CB78AA156AED162EB9
C1 030F28E63B8A9C570D7FEF31940226F4
AUTH CBBD199D075F7220957FD8205A233B9F
";

/// The program, or nothing where there is no `rt` to build it.
fn program() -> Option<&'static Path> {
    static PROGRAM: OnceLock<Option<PathBuf>> = OnceLock::new();
    PROGRAM.get_or_init(built).as_deref()
}

/// Has `rt` prove and build the program, which it runs once with no input.
fn built() -> Option<PathBuf> {
    let folder = Path::new(env!("CARGO_MANIFEST_DIR")).join("../crates/vector");
    let output = Command::new("rt").arg("run").current_dir(&folder).stdin(Stdio::null()).output().ok()?;
    assert!(output.status.success(), "`rt run` failed in crates/vector: {}", String::from_utf8_lossy(&output.stderr));
    Some(folder.join("out").join("vector"))
}

/// Holds what the program prints for an input to what it should print.
fn prints(program: &Path, input: &[u8], lines: &str) {
    let mut child = Command::new(program).stdin(Stdio::piped()).stdout(Stdio::piped()).spawn().expect("the program starts");
    // A program that has read enough may have ended by now.
    let _ = child.stdin.take().expect("a pipe").write_all(input);
    let output = child.wait_with_output().expect("the program ends");
    assert!(output.status.success());
    assert_eq!(String::from_utf8_lossy(&output.stdout), lines, "{}", hex::encode(input));
}

/// The four lines of the reference.
fn reference_lines(key: &[u8], iv: &[u8; 16], block: &[u8; 16]) -> String {
    let mode = Mode::<Fips197>::new(key, iv);
    let step = mode.forward(u128::from_be_bytes(*block), mode.start_mask);
    let tag = hex::encode(&mode.tag(Finish::Cipher, 1, step.middletext));
    format!("R1 {:032X}\nT1 {:032X}\nC1 {:032X}\nAUTH {tag}\n", mode.start_mask, step.middletext, step.other)
}

fn skipped() {
    println!("no rt program here: skipped");
}

#[test]
fn the_published_input_gives_the_published_lines() {
    let Some(program) = program() else { return skipped() };
    prints(program, &hex::decode(PUBLISHED).expect("digits"), PUBLISHED_LINES);
}

#[test]
fn other_lengths_print_nothing() {
    let Some(program) = program() else { return skipped() };
    let input = [&hex::decode(PUBLISHED).expect("digits")[..], &[0; 52]].concat();
    for length in [0, 1, 16, 32, 47, 49, 63, 64, 65, 96, 100] {
        prints(program, &input[..length], "");
    }
}

#[test]
fn other_inputs_give_the_lines_of_the_reference() {
    let Some(program) = program() else { return skipped() };
    let mut random = Random::new(22);
    for _ in 0..100 {
        let (key, iv, block) = (random.block(), random.block(), random.block());
        prints(program, &[key, iv, block].concat(), &reference_lines(&key, &iv, &block));
    }
}

/// The one IV under which step 1 comes to zero.
#[test]
fn a_start_mask_of_zero_gives_way_to_the_key() {
    let Some(program) = program() else { return skipped() };
    let mut random = Random::new(23);
    let ((key, iv), block) = (pairs::replaced(&random.block()), random.block());
    let lines = reference_lines(&key, &iv, &block);
    assert!(lines.starts_with(&format!("R1 {}\n", hex::encode(&key))));
    prints(program, &[&key[..], &iv, &block].concat(), &lines);
}

/// The calls refuse the key of zeros with that IV, and take it with any other.
#[test]
fn a_mask_of_nothing_prints_nothing() {
    let Some(program) = program() else { return skipped() };
    let mut random = Random::new(24);
    let zeros = pairs::NO_KEYS[0];
    let (key, iv) = pairs::replaced(zeros);
    prints(program, &[&key[..], &iv, &random.block()].concat(), "");
    for (key, iv) in [(key, random.block()), pairs::one_bit_from_the_iv(zeros, 0), pairs::one_bit_from_the_key(zeros, 0)] {
        let block = random.block();
        prints(program, &[&key[..], &iv, &block].concat(), &reference_lines(&key, &iv, &block));
    }
}
