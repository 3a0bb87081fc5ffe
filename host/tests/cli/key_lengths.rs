//! Keys of 32 bytes: on the command line, and in files.

use balzenoh::Refusal;

use crate::program::{digits, Folder};
use crate::support::finish::Finish;
use crate::support::fips197::Fips197;
use crate::support::mode::{padded, Mode};
use crate::{IV, KEY, LONG_KEY};

const LIST: &[u8] = b"parcel 4711 -> cage 12";

/// The list as the mode seals it under this key.
fn sealed(key: &[u8]) -> Vec<u8> {
    let iv = digits(IV).try_into().expect("16 bytes");
    Mode::<Fips197>::new(key, &iv).seal_blocks(Finish::Cipher, &iv, &padded(LIST))
}

#[test]
fn sixty_four_digits_seal_and_open() {
    let (folder, sealed) = (Folder::new("digits"), sealed(&digits(LONG_KEY)));
    for key in [LONG_KEY, &LONG_KEY.to_lowercase()] {
        folder.feed(&["seal", "--key", key, "--iv", IV], LIST).exits(0).prints(&sealed);
        folder.feed(&["seal", "--key", key, "--iv", IV, "--runs", "2"], LIST).exits(0).prints(&sealed);
        folder.feed(&["open", "--key", key], &sealed).exits(0).prints(LIST);
        folder.feed(&["check", "--key", key], &sealed).exits(0).prints(b"passes\n");
    }
    // The first half of it is another key.
    folder.feed(&["open", "--key", KEY], &sealed).exits(6).prints(b"");
    folder.feed(&["open", "--key", LONG_KEY], &folder.feed(&["seal", "--key", KEY, "--iv", IV], LIST).stdout).exits(6);
}

#[test]
fn runs_go_by_a_long_key_too() {
    let folder = Folder::new("runs");
    folder.write("key", &digits(LONG_KEY));
    folder.write("list", LIST);
    folder.write("sealed", &sealed(&digits(LONG_KEY)));
    folder.shell("$B seal-run --key @key --iv $I --first 0 --last list -o run --record record").exits(0);
    folder.shell("tail -c +17 sealed | head -c 32 | cmp - run").exits(0);
    folder.shell("$B check-run --key @key --iv $I --first 0 run --record checked && cmp record checked").exits(0);
    folder.shell("$B close --key @key --iv $I @record -o tag && tail -c 16 sealed | cmp - tag").exits(0);
    folder.shell("$B test --key @key --iv $I --tag @tag @record").exits(0);
    folder.shell("$B test --key $K --iv $I --tag @tag @record").exits(6);
}

#[test]
fn other_numbers_of_digits_are_refused() {
    let folder = Folder::new("others");
    for length in [0, 2, 30, 34, 48, 62, 66, 96, 128] {
        let key = "5".repeat(length);
        let told = format!("refusal 1: --key has {} byte", length / 2);
        folder.feed(&["seal", "--key", &key, "--iv", IV], LIST).exits(1).tells(&told).prints(b"");
        folder.feed(&["open", "--key", &key], LIST).exits(1).tells("and a key has 16 or 32.").prints(b"");
    }
    // Help and man page say what the refusal says.
    let said = "the key is neither 16 nor 32 bytes";
    assert!(Refusal::KeyLength.sentence().to_lowercase().starts_with(said));
    for page in ["--help", "man"] {
        assert!(folder.run(&[page]).exits(0).text().contains(said), "{page}");
    }
}

/// 32 characters that are all digits are those of a short key, and 31 with a line end are refused as they would be without it. Any
/// other 32 bytes are a long key.
#[test]
fn a_long_key_comes_from_a_file_as_bytes_or_digits() {
    let folder = Folder::new("files");
    folder.write("raw", &digits(LONG_KEY));
    folder.write("digits", LONG_KEY.as_bytes());
    folder.write("line", format!("{LONG_KEY}\n").as_bytes());
    folder.write("short", KEY.as_bytes());
    folder.write("cut", format!("{}\n", &KEY[1..]).as_bytes());
    folder.write("cut-twice", format!("{}\r\n", &KEY[2..]).as_bytes());
    folder.write("text", b"thirty-two characters, no digits");
    folder.write("31", &[7; 31]);
    folder.write("33", &[7; 33]);
    let seal = |key: &str| folder.feed(&["seal", "--key", key, "--iv", IV], LIST);
    for file in ["@raw", "@digits", "@line"] {
        seal(file).exits(0).prints(&sealed(&digits(LONG_KEY)));
    }
    seal("@short").exits(0).prints(&sealed(&digits(KEY)));
    seal("@text").exits(0).prints(&sealed(b"thirty-two characters, no digits"));
    seal("@cut").exits(1).tells("refusal 1: --key @cut has 31 hexadecimal digits, and a key has 32 or 64.");
    seal("@cut-twice").exits(1).tells("refusal 1: --key @cut-twice has 15 bytes, and a key has 16 or 32.");
    seal("@31").exits(1).tells("refusal 1: --key @31 has 31 bytes, and a key has 16 or 32.");
    seal("@33").exits(1).tells("refusal 1: --key @33 has 33 bytes, and a key has 16 or 32.");
    // Only a key has two lengths.
    folder.feed(&["seal", "--key", KEY, "--iv", "@raw"], LIST).exits(2).tells("--iv @raw has 32 bytes, and an IV has 16.");
}
