//! A key that lends zeros, with the IV under which nothing would be masked and with others.

use balzenoh::hex;

use crate::program::Folder;
use crate::support::pairs::{self, NO_KEYS};
use crate::IV;

/// The record of one block, with the rest of its bytes zero.
const RECORD: &str = "000000000000000100000000000000000000000000000000";

/// A folder with a key of zeros, its IV, a list and a sealed list that starts with that IV.
fn commissioned(name: &str, key: &[u8]) -> Folder {
    let (folder, (key, iv)) = (Folder::new(name), pairs::replaced(key));
    folder.write("key", &key);
    folder.write("iv", format!("{}\n", hex::encode(&iv)).as_bytes());
    folder.write("list", b"parcel 4711 -> cage 12");
    folder.write("sealed", &[iv; 4].concat());
    folder.write("hashed", &[iv; 5].concat()[..68]);
    folder.write("empty", b"");
    folder
}

#[test]
fn every_command_with_a_key_refuses_and_says_what_to_do() {
    for key in NO_KEYS {
        every_command_refuses(&commissioned("every-command", key));
    }
}

fn every_command_refuses(folder: &Folder) {
    let files = folder.names();
    let under = "--key @key --iv @iv";
    let lines = [
        format!("seal {under} list -o old"),
        format!("seal {under} --runs 3 --threads 2 list -o old"),
        "open --key @key sealed -o old".to_string(),
        "open --key @key --threads 2 sealed -o old".to_string(),
        "check --key @key sealed".to_string(),
        "check --key @key --runs 2 --threads 2 sealed".to_string(),
        format!("seal-run {under} --first 0 empty -o old --record old.rec"),
        format!("seal-run {under} --first 7 --last list -o old --record old.rec"),
        format!("check-run {under} --first 1048576 empty --record old.rec"),
        format!("check-run {under} --first 7 sealed --record old.rec"),
        format!("close {under} {RECORD} -o old"),
        format!("test {under} --tag {IV} {RECORD}"),
        format!("seal {under} --finish sha1 list -o old"),
        format!("seal {under} --finish sha1 --runs 3 --threads 2 list -o old"),
        "open --key @key --finish sha1 hashed -o old".to_string(),
        "check --key @key --finish sha1 hashed".to_string(),
        format!("close {under} --finish sha1 {RECORD} -o old"),
        format!("test {under} --finish sha1 --tag {IV}00000000 {RECORD}"),
    ];
    for line in lines {
        for old in line.split(' ').filter(|word| word.starts_with("old")) {
            folder.write(old, b"of yesterday");
        }
        let told = folder.shell(&format!("$B {line}")).exits(10).tells("refusal 10: The first 16 bytes of the key are zeros");
        assert!(told.stderr.contains("Load a real key"), "{}", told.stderr);
        told.prints(b"");
        assert_eq!(folder.names(), files, "{line}");
    }
}

#[test]
fn what_else_is_wrong_comes_before_it() {
    let folder = commissioned("before-it", NO_KEYS[1]);
    folder.write("long", &vec![0; 16_777_216]);
    let under = "--key @key --iv @iv";
    let lines = [
        (3, format!("seal {under} long")),
        (3, format!("seal {under} --runs 2 long")),
        (3, "open --key @key iv".to_string()),
        (3, format!("seal-run {under} --first 0 list")),
        (4, format!("seal-run {under} --first 1048576 --last list")),
        (4, format!("check-run {under} --first 1048577 empty")),
        (9, format!("close {under} 00000001{}", &RECORD[8..])),
        (3, format!("test {under} --tag 00 {RECORD}")),
        (24, format!("test {under} --tag {IV} 00")),
    ];
    for (number, line) in lines {
        folder.shell(&format!("$B {line}")).exits(number).prints(b"");
    }
}

#[test]
fn with_another_iv_it_is_taken_like_any_key() {
    for key in NO_KEYS {
        let folder = commissioned("another-iv", key);
        folder.shell("$B seal --key @key --iv $I list -o new && $B check --key @key new").exits(0).prints(b"passes\n");
        folder.shell("$B open --key @key new").exits(0).prints(b"parcel 4711 -> cage 12");
    }
}

#[test]
fn commands_without_a_key_know_nothing_of_it() {
    let (folder, zeros) = (Folder::new("without-a-key"), "0".repeat(32));
    folder.shell(&format!("$B join {RECORD}")).exits(0).prints(format!("{RECORD}\n").as_bytes());
    folder.shell(&format!("$B jump --mask {zeros} --distance -5")).exits(0).prints(format!("{zeros}\n").as_bytes());
}
