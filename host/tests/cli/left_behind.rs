//! Unless the exit status is 0, 64 or 73, nothing of an earlier answer is left at the output.

use std::fs;
use std::os::unix::fs::symlink;

use crate::program::{digits, Folder};
use crate::{IV, KEY};

const OLD: &[u8] = b"the list of yesterday";

/// A folder with an old output and an input that no key opens.
fn filled(name: &str) -> Folder {
    let folder = Folder::new(name);
    folder.write("sealed", &[7; 64]);
    folder.write("list", OLD);
    folder
}

#[test]
fn a_value_that_cannot_be_read_as_digits_is_refused_by_number() {
    let folder = filled("unread");
    let record = "00".repeat(24);
    let odd = &KEY[1..];
    let lines: [(i32, Vec<&str>); 9] = [
        (1, vec!["open", "--key", odd, "sealed", "-o", "list"]),
        (1, vec!["open", "--key", "XYZ", "sealed", "-o", "list"]),
        // 16 characters that are no digits are not 16 bytes.
        (1, vec!["open", "--key", "sixteen letters!", "sealed", "-o", "list"]),
        (1, vec!["seal", "--key", odd, "--iv", odd, "sealed", "-o", "list"]),
        (2, vec!["seal", "--key", KEY, "--iv", odd, "sealed", "-o", "list"]),
        (2, vec!["check-run", "--key", KEY, "--iv", "", "--first", "0", "sealed", "--record", "list"]),
        (24, vec!["join", &record[1..], &record, "--record", "list"]),
        (24, vec!["close", "--key", odd, "--iv", IV, "no record", "-o", "list"]),
        (4, vec!["seal-run", "--key", KEY, "--iv", IV, "--first", "4294967296", "sealed", "-o", "list"]),
    ];
    for (number, line) in lines {
        folder.write("list", OLD);
        folder.run(&line).exits(number).prints(b"");
        assert_eq!(folder.names(), ["sealed"], "{line:?}");
    }
    folder.run(&["test", "--key", KEY, "--iv", IV, "--tag", odd, &record]).exits(3);
    folder.run(&["jump", "--mask", odd, "--distance", "1"]).exits(3);
}

#[test]
fn inputs_that_cannot_be_read_leave_nothing() {
    let folder = filled("unreadable");
    for line in ["@missing sealed", "@. sealed", "$K missing", "$K .", "$K /proc/self/mem", "$K < ."] {
        folder.write("list", OLD);
        folder.shell(&format!("$B open -o list --key {line}")).exits(74);
        assert_eq!(folder.names(), ["sealed"], "{line}");
    }
}

#[test]
fn a_full_disk_leaves_nothing() {
    let folder = filled("full");
    folder.write("text", &[b'x'; 60_000]);
    // The largest file that may be written is smaller than the answer.
    folder.shell("trap '' XFSZ; ulimit -f 8; exec $B seal --key $K --iv $I text -o list").exits(74);
    assert_eq!(folder.names(), ["sealed", "text"]);
    folder.shell("$B seal --key $K --iv $I text -o /dev/full").exits(74);
    folder.shell("$B seal --key $K --iv $I text > /dev/full").exits(74);
}

#[test]
fn where_the_folder_cannot_be_written_the_file_is_emptied() {
    let folder = filled("closed");
    folder.write("text", b"a list");
    for name in ["sealed", "text"] {
        folder.set_mode(name, 0o444);
    }
    folder.set_mode(".", 0o555);
    let lines: [(i32, &[&str]); 3] = [
        (6, &["open", "--key", KEY, "sealed", "-o", "list"]),
        (74, &["seal", "--key", KEY, "--iv", IV, "text", "-o", "list"]),
        (74, &["open", "--key", KEY, "missing", "-o", "list"]),
    ];
    for (status, line) in lines {
        folder.set_mode("list", 0o666);
        folder.write("list", OLD);
        let Some(run) = folder.run_unprivileged(line) else { return };
        run.exits(status).tells("list is now empty");
        assert_eq!(folder.read("list"), Some(Vec::new()), "{line:?}");
        // Where that fails too, a status of its own says that the old file is still there.
        folder.write("list", OLD);
        folder.set_mode("list", 0o444);
        folder.run_unprivileged(line).expect("it ran before").exits(73).tells("list is still there");
        assert_eq!(folder.read("list"), Some(OLD.to_vec()), "{line:?}");
    }
    folder.set_mode(".", 0o755);
}

#[test]
fn a_link_is_followed_to_its_target() {
    let folder = filled("links");
    folder.write("text", b"a list");
    symlink("list", folder.path().join("link")).expect("a link");
    symlink("link", folder.path().join("second")).expect("a link");
    for link in ["link", "second"] {
        folder.write("list", OLD);
        folder.run(&["open", "--key", KEY, "sealed", "-o", link]).exits(6);
        assert_eq!(folder.names(), ["link", "sealed", "second", "text"]);
        // The link has no target now, and is followed all the same.
        folder.run(&["seal", "--key", KEY, "--iv", IV, "text", "-o", link]).exits(0);
        folder.run(&["open", "--key", KEY, "list"]).exits(0).prints(b"a list");
        folder.run(&["seal", "--key", KEY, "--iv", IV, "text", "-o", link]).exits(0);
        assert!(fs::symlink_metadata(folder.path().join(link)).expect("the link").is_symlink());
    }
    symlink("loop", folder.path().join("loop")).expect("a link");
    folder.run(&["seal", "--key", KEY, "--iv", IV, "text", "-o", "loop"]).exits(74);
}

#[test]
fn what_cannot_be_said_changes_nothing() {
    let folder = filled("silent");
    for stderr in ["2>/dev/full", "2>&-"] {
        for (status, line) in [(6, "open --key $K sealed"), (74, "open --key $K missing"), (1, "open --key 00 sealed")] {
            folder.write("list", OLD);
            folder.shell(&format!("$B {line} -o list {stderr}")).exits(status);
            assert_eq!(folder.names(), ["sealed"], "{line} {stderr}");
        }
        folder.write("list", OLD);
        folder.shell(&format!("$B open --kay -o list {stderr}")).exits(64);
        assert_eq!(folder.read("list"), Some(OLD.to_vec()));
        // A record that was to go to standard error is an answer, and must not be lost.
        folder.shell(&format!("$B seal-run --key $K --iv $I --first 0 sealed -o list {stderr}")).exits(74);
        assert_eq!(folder.names(), ["sealed"], "{stderr}");
    }
}

#[test]
fn a_wrong_command_line_is_found_before_anything_is_read() {
    let folder = filled("first");
    for line in ["seal --key @missing", "seal --key @missing --iv $I --threads 0", "seal-run --key @missing --iv $I --first one"]
    {
        folder.shell(&format!("$B {line} -o list")).exits(64);
        assert_eq!(folder.read("list"), Some(OLD.to_vec()), "{line}");
    }
}

#[test]
fn both_answers_of_a_run_go_or_none() {
    let folder = filled("both");
    folder.write("key", &digits(KEY));
    fs::create_dir(folder.path().join("place")).expect("a folder");
    for pair in
        ["-o place --record list", "-o list --record place", "-o missing/run --record list", "-o list --record missing/rec"]
    {
        folder.write("list", OLD);
        folder.shell(&format!("$B seal-run --key @key --iv $I --first 0 {pair} sealed")).exits(74);
        assert_eq!(folder.names(), ["key", "place", "sealed"], "{pair}");
    }
}
