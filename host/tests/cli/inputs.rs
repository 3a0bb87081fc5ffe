//! No input is lost: a file that is read is not written, by whatever name it goes.

use std::os::unix::fs::symlink;

use crate::program::{digits, Folder};
use crate::KEY;

/// A folder with a list, the list sealed, and the key, and all of that once more.
fn filled(name: &str) -> (Folder, Vec<(&'static str, Vec<u8>)>) {
    let folder = Folder::new(name);
    folder.write("list", b"parcel 1 -> cage 2\n");
    folder.write("key", &digits(KEY));
    folder.write("wrong", &[9; 16]);
    folder.write("long", &[b'x'; 200]);
    folder.shell("$B seal --key $K --iv $I list > sealed").exits(0);
    std::fs::hard_link(folder.path().join("sealed"), folder.path().join("hard")).expect("a link");
    symlink("sealed", folder.path().join("soft")).expect("a link");
    symlink("key", folder.path().join("softkey")).expect("a link");
    let names = ["list", "key", "wrong", "long", "sealed", "hard", "soft", "softkey"];
    let before = names.map(|name| (name, folder.read(name).expect("a file"))).to_vec();
    (folder, before)
}

#[test]
fn an_input_is_never_the_output() {
    let (folder, before) = filled("inputs");
    let lines = [
        "$B open --key @wrong -o sealed < sealed",
        "$B open --key @key -o sealed < sealed",
        "$B open --key @key -o sealed - < sealed",
        "$B open --key @wrong -o hard < sealed",
        "$B open --key @wrong -o soft < sealed",
        "$B open --key @wrong -o sealed soft",
        "$B open --key @wrong -o ./hard sealed",
        "$B open --key @wrong -o sealed /dev/stdin < sealed",
        "$B seal --key @key --iv $I -o long < long",
        "$B seal --key @softkey --iv $I -o key list",
        "$B seal --key @key --iv $I -o softkey list",
        "$B seal --key @- --iv $I -o key list < key",
        "$B seal --key $K --iv @key -o key list",
        "$B check-run --key $K --iv $I --first 0 --record sealed < sealed",
        "$B seal-run --key $K --iv $I --first 0 --last -o new --record list list",
        "$B seal-run --key $K --iv $I --first 0 --last -o new --record list < list",
        "$B join @list --record list",
        "$B close --key @key --iv $I -o list @list",
        "$B open --key @key sealed >> sealed",
        "$B open --key @key sealed 1<> hard",
    ];
    for line in lines {
        folder.shell(line).exits(64).tells("nothing was done");
        for (name, bytes) in &before {
            assert!(folder.read(name).as_ref() == Some(bytes), "{name} after {line}");
        }
        assert!(folder.read("new").is_none(), "{line}");
    }
}

#[test]
fn two_outputs_are_two_files() {
    let (folder, _) = filled("outputs");
    let run = "$B seal-run --key $K --iv $I --first 0 --last list";
    folder.write("old", b"old");
    symlink("old", folder.path().join("link")).expect("a link");
    symlink("nothing", folder.path().join("dangling")).expect("a link");
    for pair in ["-o new --record ./new", "-o old --record link", "-o dangling --record nothing"] {
        folder.shell(&format!("{run} {pair}")).exits(64);
    }
    // Standard error gets the record where no file is named for it.
    for pair in ["-o both 2> both", "> both 2>&1"] {
        folder.shell(&format!("{run} {pair}")).exits(64);
    }
    assert_eq!(folder.read("old"), Some(b"old".to_vec()));
    assert!(folder.read("new").is_none() && folder.read("nothing").is_none());
}

#[test]
fn standard_input_is_read_once() {
    let (folder, _) = filled("once");
    for line in ["$B seal --key @- --iv $I -o new", "$B seal --key @- --iv @- -o new list", "$B seal --key @- --iv $I -o new -"] {
        folder.shell(&format!("{line} < key")).exits(64).tells("standard input");
    }
    assert!(folder.read("new").is_none());
    folder.shell("$B open --key @- sealed < key").exits(0).prints(b"parcel 1 -> cage 2\n");
}
