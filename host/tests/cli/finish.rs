//! The hash finish, and SHA-1 alone.

use crate::program::{digits, Folder};
use crate::support::finish::{Finish, FINISHES};
use crate::support::fips197::Fips197;
use crate::support::mode::{padded, Mode};
use crate::{IV, KEY, LONG_KEY};

const LIST: &[u8] = b"parcel 4711 -> cage 12";

/// The record of the paper's one block, its ciphertext and its tags.
const RECORD: &str = "0000000000000001C31FDB743AA199CB78AA156AED162EB9";
const C1: &str = "030F28E63B8A9C570D7FEF31940226F4";
const TAGS: [(&str, &str); 2] =
    [("cipher", "CBBD199D075F7220957FD8205A233B9F"), ("sha1", "ECFA375F615DB07834F50C7B9C3B08A9C9D3F12F")];

/// What is said of the length of a sealed list.
const SEALED_CIPHER: &str = "a sealed list has 48 to 16,777,248, a multiple of 16";
const SEALED_HASH: &str = "a sealed list with --finish sha1 has 52 to 16,777,252, 36 over a multiple of 16";

/// The list as the mode seals it.
fn sealed(finish: Finish, key: &str, list: &[u8]) -> Vec<u8> {
    let iv = digits(IV).try_into().expect("16 bytes");
    Mode::<Fips197>::new(&digits(key), &iv).seal_blocks(finish, &iv, &padded(list))
}

#[test]
fn lists_are_sealed_opened_and_checked() {
    let folder = Folder::new("finish-lists");
    for (key, finish) in [KEY, LONG_KEY].into_iter().flat_map(|key| FINISHES.map(|finish| (key, finish))) {
        let option = if finish == Finish::Sha1 { "--finish=sha1" } else { "--finish=cipher" };
        let sealed = sealed(finish, key, LIST);
        for spread in [&[][..], &["--runs", "2"], &["--threads", "2"]] {
            folder.feed(&[&["seal", "--key", key, "--iv", IV, option][..], spread].concat(), LIST).exits(0).prints(&sealed);
            folder.feed(&[&["check", "--key", key, option][..], spread].concat(), &sealed).exits(0).prints(b"passes\n");
        }
        folder.feed(&["open", "--key", key, option], &sealed).exits(0).prints(LIST);
        let mut damaged = sealed.clone();
        damaged[sealed.len() - 1] ^= 1;
        folder.feed(&["open", "--key", key, option], &damaged).exits(6).prints(b"");
        folder.feed(&["check", "--key", key, option], &damaged).exits(6).prints(b"");
    }
    // The cipher's is the usual one.
    folder.feed(&["seal", "--key", KEY, "--iv", IV], LIST).exits(0).prints(&sealed(Finish::Cipher, KEY, LIST));
}

#[test]
fn the_papers_record_is_closed_and_tested() {
    let folder = Folder::new("finish-tags");
    let under = ["--key", KEY, "--iv", IV, RECORD];
    for (finish, tag) in TAGS {
        let close = [&["close", "--finish", finish][..], &under].concat();
        folder.run(&close).exits(0).prints(format!("{tag}\n").as_bytes());
        folder.run(&[&close[..], &["-o", "tag"]].concat()).exits(0).prints(b"");
        assert_eq!(folder.read("tag"), Some(digits(tag)));
        folder.write("digits", format!("{tag}\n").as_bytes());
        for given in [tag, "@tag", "@digits"] {
            folder.run(&[&["test", "--finish", finish, "--tag", given][..], &under].concat()).exits(0).prints(b"passes\n");
        }
        // IV, ciphertext and tag are a sealed list, of which the last block is not padded.
        let sealed = [digits(IV), digits(C1), digits(tag)].concat();
        folder.feed(&["open", "--finish", finish, "--key", KEY], &sealed).exits(7).prints(b"");
        folder.feed(&["check", "--finish", finish, "--key", KEY], &sealed).exits(7).prints(b"");
        let wrong = "0".repeat(tag.len());
        folder.run(&[&["test", "--finish", finish, "--tag", &wrong][..], &under].concat()).exits(6).prints(b"");
    }
}

/// What was made with one finish is refused with the other by its length, and the message says so.
#[test]
fn the_other_finish_is_told() {
    let folder = Folder::new("finish-other");
    folder.write("16", &sealed(Finish::Cipher, KEY, LIST));
    folder.write("20", &sealed(Finish::Sha1, KEY, LIST));
    folder.write("longest", &sealed(Finish::Sha1, KEY, &vec![0; 16_777_215]));
    let (cipher, hash) = ("it could be one with --finish cipher", "it could be one with --finish sha1");
    let lines = [
        ("open --key $K 20", format!("refusal 3: 20 has 68 bytes, and {SEALED_CIPHER}; {hash}.")),
        ("check --key $K 20", format!("refusal 3: 20 has 68 bytes, and {SEALED_CIPHER}; {hash}.")),
        ("open --key $K longest", format!("refusal 3: longest has more than 16,777,248 bytes, and {SEALED_CIPHER}; {hash}.")),
        ("open --key $K --finish sha1 16", format!("refusal 3: 16 has 64 bytes, and {SEALED_HASH}; {cipher}.")),
        ("check --key $K --finish sha1 /dev/null", format!("has 0 bytes, and {SEALED_HASH}.")),
        ("open --key $K --finish sha1 /dev/zero", format!("has more than 16,777,252 bytes, and {SEALED_HASH}.")),
        ("test --finish sha1 --tag $I", "--tag has 16 bytes, and a tag with --finish sha1 has 20.".to_string()),
        ("test --tag ${I}01234567", "--tag has 20 bytes, and a tag has 16.".to_string()),
        ("test --finish sha1 --tag 012", "--tag has 3 hexadecimal digits, and a tag with --finish sha1 has 40.".to_string()),
    ];
    for (line, message) in lines {
        let rest = if line.starts_with("test") { format!(" --key $K --iv $I {RECORD}") } else { String::new() };
        folder.shell(&format!("$B {line}{rest}")).exits(3).tells(&message).prints(b"");
    }
    // An earlier list goes, as after every refusal.
    folder.write("list", b"the list of yesterday");
    folder.shell("$B open --key $K 20 -o list").exits(3);
    assert_eq!(folder.names(), ["16", "20", "longest"]);
    folder.shell("$B open --key $K --finish sha1 longest | tr -d '\\0' | wc -c").prints(b"0\n");
}

#[test]
fn the_bounds_are_those_of_the_library() {
    let folder = Folder::new("finish-bounds");
    let open = ["open", "--key", KEY, "--finish", "sha1"];
    for (status, length) in
        [(3, 51), (6, 52), (3, 53), (6, 64_052), (3, 16_777_248), (6, 16_777_252), (3, 16_777_253), (3, 16_777_268)]
    {
        folder.feed(&open, &vec![0; length]).exits(status).prints(b"");
    }
    let seal = ["seal", "--key", KEY, "--iv", IV, "--finish", "sha1"];
    assert_eq!(folder.feed(&seal, &vec![0; 16_777_215]).exits(0).stdout.len(), 16_777_252);
    folder.feed(&seal, &vec![0; 16_777_216]).exits(3).prints(b"");
}

#[test]
fn a_list_is_put_together_from_runs() {
    let folder = Folder::new("finish-together");
    folder.write("list", LIST);
    folder.write("iv", &digits(IV));
    folder.shell("head -c 16 list | $B seal-run --key $K --iv $I --first 0 -o 1.run --record 1.rec").exits(0);
    folder.shell("tail -c +17 list | $B seal-run --key $K --iv $I --first 1 --last -o 2.run --record 2.rec").exits(0);
    folder.shell("$B join @1.rec @2.rec --record whole").exits(0);
    for (finish, length) in [("cipher", 64), ("sha1", 68)] {
        folder
            .shell(&format!("$B close --finish {finish} --key $K --iv $I @whole -o tag && cat iv 1.run 2.run tag > sealed"))
            .exits(0);
        assert_eq!(folder.read("sealed").expect("a sealed list").len(), length);
        folder.shell(&format!("$B open --finish {finish} --key $K sealed")).exits(0).prints(LIST);
    }
}

#[test]
fn another_word_is_no_finish() {
    let folder = Folder::new("finish-words");
    for (given, told) in
        [("md5", "is md5"), ("", "is empty"), ("SHA1", "is SHA1"), ("sha-1", "is sha-1"), (KEY, "has 32 characters")]
    {
        let message = format!("--finish {told}, and must be cipher or sha1.");
        let told = folder.feed(&["seal", "--key", IV, "--iv", IV, "--finish", given], LIST).exits(64).tells(&message);
        assert!(!told.stderr.contains(&KEY[2..]), "{}", told.stderr);
    }
    folder.feed(&["seal", "--key", KEY, "--iv", IV, "--finish"], LIST).exits(64).tells("--finish needs a value");
    // Runs, joins and jumps do not know the finish.
    for command in ["seal-run", "check-run", "join", "jump", "sha1"] {
        folder.run(&[command, "--finish", "sha1"]).exits(64).tells("--finish is no option of this command");
    }
}

#[test]
fn the_digest_of_a_text_is_printed() {
    let folder = Folder::new("sha1");
    folder.write("abc", b"abc");
    let (abc, empty) = (&b"A9993E364706816ABA3E25717850C26C9CD0D89D\n"[..], &b"DA39A3EE5E6B4B0D3255BFEF95601890AFD80709\n"[..]);
    folder.run(&["sha1", "abc"]).exits(0).prints(abc);
    folder.feed(&["sha1", "-"], b"abc").exits(0).prints(abc);
    folder.feed(&["sha1"], b"").exits(0).prints(empty);
    folder.run(&["sha1", "missing"]).exits(74).prints(b"");
    folder.run(&["sha1", "abc", "abc"]).exits(64);
    let message = "refusal 3: standard input has more than 64,032 bytes, and SHA-1 is taken of no longer text.";
    folder.feed(&["sha1"], &[0; 64_033]).exits(3).tells(message).prints(b"");
    folder.shell("ulimit -v 200000; timeout 10 $B sha1 /dev/zero").exits(3).prints(b"");
    if folder.shell("command -v sha1sum").status == Some(0) {
        folder.shell("head -c 64032 $B > text; [ $($B sha1 text) = $(sha1sum text | cut -d ' ' -f 1 | tr a-f A-F) ]").exits(0);
    }
}
