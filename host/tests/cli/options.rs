//! Ways to give options, `check`, and `--version`.

use crate::program::{digits, Folder};
use crate::{IV, KEY};

#[test]
fn the_output_has_several_spellings() {
    let folder = Folder::new("spellings");
    let sealed = folder.feed(&["seal", "--key", KEY, "--iv", IV], b"a list").exits(0).stdout;
    for spelling in [&["-onew"][..], &["-o", "new"], &["-o=new"], &["--output", "new"], &["--output=new"]] {
        folder.feed(&[&["seal", "--key", KEY, "--iv", IV][..], spelling].concat(), b"a list").exits(0).prints(b"");
        assert_eq!(folder.read("new"), Some(sealed.clone()), "{spelling:?}");
        std::fs::remove_file(folder.path().join("new")).expect("the answer");
    }
    folder.feed(&["seal", "--key", KEY, "--iv", IV, "-o-"], b"a list").exits(0).prints(&sealed);
}

#[test]
fn a_value_comes_from_standard_input() {
    let folder = Folder::new("piped");
    folder.write("list", b"a list");
    let sealed = folder.run(&["seal", "--key", KEY, "--iv", IV, "list"]).exits(0).stdout;
    folder.feed(&["seal", "--key", "@-", "--iv", IV, "list"], &digits(KEY)).exits(0).prints(&sealed);
    folder.feed(&["seal", "--key", KEY, "--iv=@-", "list"], IV.as_bytes()).exits(0).prints(&sealed);
}

#[test]
fn names_may_be_as_long_as_names_are() {
    let folder = Folder::new("long");
    let name = "n".repeat(255);
    folder.feed(&["seal", "--key", KEY, "--iv", IV, "-o", &name], b"a list").exits(0);
    folder.run(&["open", "--key", KEY, &name]).exits(0).prints(b"a list");
    folder.feed(&["seal", "--key", KEY, "--iv", IV, "-o", &"n".repeat(256)], b"a list").exits(74);
    assert_eq!(folder.names(), [name]);
}

#[test]
fn check_and_open_answer_alike_over_any_runs() {
    let folder = Folder::new("check");
    let list: Vec<u8> = (0..9_000).map(|at| at as u8).collect();
    let [sealed, empty] = [&list[..], b""].map(|list| folder.feed(&["seal", "--key", KEY, "--iv", IV], list).exits(0).stdout);
    let mut damaged = sealed.clone();
    damaged[5_000] ^= 4;
    let unpadded = digits(&[IV, "030F28E63B8A9C570D7FEF31940226F4", "CBBD199D075F7220957FD8205A233B9F"].concat());
    for spread in [&[][..], &["--runs", "7"], &["--threads", "2"], &["--runs=9", "--threads=3"]] {
        let check = [&["check", "--key", KEY][..], spread].concat();
        folder.feed(&check, &sealed).exits(0).prints(b"passes\n");
        folder.feed(&check, &empty).exits(0).prints(b"passes\n");
        folder.feed(&check, &damaged).exits(6).prints(b"");
        folder.feed(&check, &unpadded).exits(7).prints(b"");
        folder.feed(&check, &sealed[..47]).exits(3).prints(b"");
        let open = [&["open", "--key", KEY][..], spread].concat();
        folder.feed(&open, &sealed).exits(0).prints(&list);
        folder.feed(&open, &empty).exits(0).prints(b"");
        folder.feed(&open, &damaged).exits(6).prints(b"");
        folder.feed(&open, &unpadded).exits(7).prints(b"");
        folder.feed(&open, &sealed[..47]).exits(3).prints(b"");
    }
    folder.feed(&["check", "--key", "00"], &sealed[..47]).exits(1).prints(b"");
    folder.feed(&["check", "--key", IV], &sealed).exits(6).prints(b"");
    folder.feed(&["check", "--key", KEY, "-o", "new"], &sealed).exits(64);
    assert!(folder.names().is_empty());
}

#[test]
fn the_version_names_the_proved_library() {
    let folder = Folder::new("version");
    for spelling in ["--version", "-V"] {
        let text = folder.run(&[spelling]).exits(0).text();
        let lines: Vec<_> = text.lines().collect();
        assert_eq!(lines[0], concat!("balzenoh ", env!("CARGO_PKG_VERSION")));
        assert!(lines[1].starts_with("proved library: ") && lines[1].len() > 20, "{text}");
    }
}

#[test]
fn help_comes_by_every_usual_way() {
    let folder = Folder::new("ways");
    let help = folder.run(&["seal", "--help"]).exits(0).stdout;
    folder.run(&["seal", "-h"]).exits(0).prints(&help);
    folder.run(&["help", "seal"]).exits(0).prints(&help);
    folder.run(&["help"]).exits(0).prints(&folder.run(&["--help"]).exits(0).stdout);
    folder.run(&["help", "unseal"]).exits(64);
}

/// The lines that the README shows.
#[test]
fn a_key_and_an_iv_come_from_the_systems_random_source() {
    let folder = Folder::new("random");
    folder.write("routes.txt", b"parcel 1 -> cage 2\n");
    folder.shell("(umask 077; head -c 16 /dev/urandom > key); head -c 16 /dev/urandom > iv").exits(0);
    assert_eq!(folder.mode("key"), 0o600);
    folder.shell("$B seal --key @key --iv @iv routes.txt -o routes.sealed").exits(0);
    folder.shell("$B check --key @key routes.sealed").exits(0).prints(b"passes\n");
    folder.shell("rm routes.txt; $B open --key @key routes.sealed -o routes.txt; cat routes.txt").prints(b"parcel 1 -> cage 2\n");
}
