//! No input is too long for the program: it reads little more than it could use.

use crate::program::Folder;
use crate::{IV, KEY};

/// Ten seconds and 200 MB are far more than is needed.
const BOUNDED: &str = "ulimit -v 200000; timeout 10 $B";

#[test]
fn an_endless_input_is_refused_at_once() {
    let folder = Folder::new("endless");
    let lines = [
        (3, "seal --key $K --iv $I /dev/zero"),
        (3, "seal --key $K --iv $I --runs 3 < /dev/zero"),
        (3, "open --key $K < /dev/zero"),
        (3, "check --key $K /dev/zero"),
        (4, "seal-run --key $K --iv $I --first 0 /dev/zero"),
        (4, "seal-run --key $K --iv $I --first 0 --last < /dev/zero"),
        (4, "check-run --key $K --iv $I --first 0 /dev/zero"),
        (1, "seal --key @/dev/zero --iv $I"),
        (2, "seal --key $K --iv @- /dev/null < /dev/zero"),
        (24, "join @/dev/zero @/dev/zero"),
        (24, "close --key $K --iv $I @/dev/zero"),
        (3, "jump --mask @/dev/zero --distance 3"),
    ];
    for (number, line) in lines {
        folder.shell(&format!("{BOUNDED} {line}")).exits(number).prints(b"");
    }
}

#[test]
fn the_bounds_are_those_of_the_library() {
    let folder = Folder::new("bounds");
    let run = ["--key", KEY, "--iv", IV, "--first", "0"];
    let expected: [(i32, usize, &[&str]); 9] = [
        (0, 16_777_216, &["seal-run"]),
        (3, 16_777_217, &["seal-run"]),
        (4, 16_777_232, &["seal-run"]),
        (0, 16_777_215, &["seal-run", "--last"]),
        (4, 16_777_216, &["seal-run", "--last"]),
        (4, 16_777_217, &["seal-run", "--last"]),
        (0, 16_777_216, &["check-run"]),
        (3, 16_777_231, &["check-run"]),
        (4, 16_777_232, &["check-run"]),
    ];
    for (status, length, command) in expected {
        folder.feed(&[command, &run].concat(), &vec![0; length]).exits(status);
    }
    folder.feed(&["open", "--key", KEY], &vec![0; 16_777_248]).exits(6);
    folder.feed(&["open", "--key", KEY], &vec![0; 16_777_249]).exits(3);
    folder.feed(&["open", "--key", KEY], &vec![0; 16_777_264]).exits(3);
}

#[test]
fn digits_in_a_file_may_be_followed_by_a_line_end() {
    let folder = Folder::new("digits");
    folder.write("key", format!("{KEY}\r\n").as_bytes());
    folder.run(&["seal", "--key", "@key", "--iv", IV]).exits(0);
    // What lies beyond the bound is not seen, so such a file is never a key.
    folder.write("key", format!("{KEY}{}", "\n".repeat(10_000)).as_bytes());
    folder.run(&["seal", "--key", "@key", "--iv", IV]).exits(1);
    folder.write("key", format!("{KEY}{}00", "\n".repeat(10_000)).as_bytes());
    folder.run(&["seal", "--key", "@key", "--iv", IV]).exits(1);
}
