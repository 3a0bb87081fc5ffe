//! Lists of up to 16 MB: the same bytes in runs over threads as in one piece, how much memory they take, and what is shown meanwhile.

use balzenoh::{seal_with, Finish, Iv, Key};

use crate::program::{digits, Folder};
use crate::{IV, KEY};

const LONGEST: usize = 16_777_215;
const MEGABYTE: usize = 1_000_000;
/// So many runs of a few blocks last for more than half a second.
const LASTING: &str = "--runs 1000000 --threads 1";

/// A folder with the longest list, and that list sealed by the library in one piece.
fn filled(name: &str, finish: Finish) -> Folder {
    let folder = Folder::new(name);
    let list: Vec<u8> = (0..LONGEST as u32).map(|at| (at ^ at >> 8 ^ at >> 16) as u8).collect();
    let (key, iv) = (Key::from_slice(&digits(KEY)).expect("a key"), Iv::from_slice(&digits(IV)).expect("an IV"));
    folder.write("sealed", &seal_with(finish, &key, &iv, &list).expect("within the limit"));
    folder.write("list", &list);
    folder
}

#[test]
fn the_longest_list_in_runs_and_in_one_piece() {
    for (name, finish) in [("cipher", Finish::Cipher), ("sha1", Finish::Sha1)] {
        let folder = filled(&format!("longest-{name}"), finish);
        for spread in ["", "--runs 1", "--threads 2", "--runs 3 --threads 2"] {
            folder.shell(&format!("$B seal --key $K --iv $I --finish {name} {spread} list -o new && cmp new sealed")).exits(0);
            folder.shell(&format!("$B open --key $K --finish {name} {spread} sealed -o new && cmp new list")).exits(0);
            folder.shell(&format!("$B check --key $K --finish {name} {spread} sealed")).exits(0).prints(b"passes\n");
        }
        a_bit_changed(&folder, name);
    }
}

/// Nothing of a damaged list is left, in whatever runs it is looked at.
fn a_bit_changed(folder: &Folder, finish: &str) {
    let mut sealed = folder.read("sealed").expect("a sealed list");
    sealed[LONGEST / 2] ^= 1;
    folder.write("damaged", &sealed);
    for spread in ["", "--threads 2"] {
        folder.write("new", b"of yesterday");
        folder.shell(&format!("$B open --key $K --finish {finish} {spread} damaged -o new")).exits(6).prints(b"");
        assert!(folder.read("new").is_none());
        folder.shell(&format!("$B check --key $K --finish {finish} {spread} damaged")).exits(6).prints(b"");
    }
}

/// The list and the answer once each, and little more.
#[test]
fn memory_is_that_of_input_and_output() {
    let folder = filled("memory", Finish::Cipher);
    let (both, input) = (2 * LONGEST + 8 * MEGABYTE, LONGEST + 8 * MEGABYTE);
    let seal = ["seal", "--key", KEY, "--iv", IV, "list", "-o", "new"];
    let expected: [(usize, &[&str]); 5] = [
        (both, &seal),
        (both, &[&seal[..], &["--threads", "8"]].concat()),
        (both, &["open", "--key", KEY, "sealed", "-o", "new"]),
        (both, &["open", "--key", KEY, "--threads", "8", "sealed", "-o", "new"]),
        (input, &["check", "--key", KEY, "sealed"]),
    ];
    for (most, arguments) in expected {
        let peak = folder.peak_memory(arguments);
        println!("{}: {:.1} MB", arguments.join(" "), peak as f64 / MEGABYTE as f64);
        assert!((LONGEST..most).contains(&peak), "{arguments:?}: {peak}");
    }
}

/// How much is done, where this is a bar.
fn percent(what: &str, part: &str) -> Option<u32> {
    part.strip_prefix(what)?.strip_prefix(" [")?.strip_suffix(" %")?.rsplit(' ').next()?.parse().ok()
}

#[test]
fn a_terminal_shows_how_far_it_is_and_nothing_is_left() {
    let folder = filled("progress", Finish::Cipher);
    for (what, line) in [
        ("sealing", "seal --key $K --iv $I list -o new"),
        ("checking", "check --key $K sealed"),
        ("checking", "open --key $K sealed -o new"),
    ] {
        let Some(told) = folder.on_a_terminal(&format!("$B {line} {LASTING} | tail -n 1")) else { return };
        let told = told.exits(0).text();
        let shown: Vec<_> = told.split('\r').filter_map(|part| percent(what, part)).collect();
        assert!(shown.len() > 1 && shown.is_sorted(), "{told:?}");
        // Behind the last bar come spaces over it, and then what the command prints, if anything.
        let behind = told.rsplit(" %\r").next().expect("a part");
        let left = behind.trim_start_matches(' ').trim_start_matches('\r').trim_end();
        assert!(left == if line.starts_with("check") { "passes" } else { "" }, "{told:?}");
    }
}

/// Work that is soon done is not shown, and nothing is where standard error is no terminal.
#[test]
fn nothing_is_shown_where_nobody_waits_or_looks() {
    let folder = filled("quiet", Finish::Cipher);
    let lines = ["seal --key $K --iv $I list -o new", "check --key $K sealed >&2", "open --key $K sealed -o new"];
    for line in lines {
        let told = folder.shell(&format!("$B {line} {LASTING}")).exits(0);
        assert_eq!(told.stderr, if line.starts_with("check") { "passes\n" } else { "" });
    }
    folder.write("short", &[b'x'; 100_000]);
    let Some(told) = folder.on_a_terminal("$B seal --key $K --iv $I --threads 2 short -o new") else { return };
    told.exits(0).prints(b"");
}
