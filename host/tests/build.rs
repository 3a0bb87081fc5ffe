//! The build from the outside: when `rt` is run and where, what is shown meanwhile, and what the build knows of the proof.
//!
//! A small program stands in the place of `rt`.

#[path = "support/checkout.rs"]
mod checkout;

use std::fs;
use std::process::{Command, Output};

use checkout::{present, told, Checkout, ARCHIVES, HOST};

const CHECK: [&str; 4] = ["check", "--offline", "--quiet", "--lib"];

#[test]
fn nothing_is_proved_twice() {
    let checkout = Checkout::new("twice");
    let calls_after = |arguments: &[&str]| {
        checkout.cargo(arguments);
        checkout.calls().len()
    };
    assert_eq!(calls_after(&CHECK), 2);
    // The same text with another time, another profile, and a crate that the archives do not need.
    let list = fs::read_to_string(checkout.path("top/crates.txt")).expect("the list");
    checkout.write("top/crates.txt", &list);
    assert_eq!(calls_after(&CHECK), 2);
    assert_eq!(calls_after(&[&CHECK[..], &["--release"]].concat()), 2);
    checkout.write("top/crates/vector/src/lib.rt", "changed");
    assert_eq!(calls_after(&CHECK), 2);
    // A crate that they need.
    checkout.write("top/crates/blocks/src/lib.rt", "changed");
    assert_eq!(calls_after(&CHECK), 4);
    // An archive that is another one than was built from these sources.
    checkout.write("top/target/staticlib/libbalzenoh.a", "another");
    checkout.write("top/crates.txt", &list);
    assert_eq!(calls_after(&CHECK), 6);
    // Another toolchain.
    let rt = fs::read_to_string(checkout.path("bin/rt")).expect("the program");
    checkout.write("bin/rt", &rt.replace("a kit", "another kit"));
    assert_eq!(calls_after(&CHECK), 8);
}

#[test]
fn the_proof_is_followed_on_the_terminal() {
    let checkout = Checkout::new("terminal");
    if !present("script") {
        return;
    }
    // The first crate takes a second.
    let rt = fs::read_to_string(checkout.path("bin/rt")).expect("the program");
    checkout.write("bin/rt", &rt.replace("for name", "sleep 1.1\nfor name"));
    let cargo = format!("{} {}", env!("CARGO"), CHECK.join(" "));
    let shown = told(&checkout.run("script", &["-qec", &cargo, "/dev/null"]));
    let expected = [
        "7 crates to prove, which takes some minutes the first time; now blocks",
        "1 of 7 proved: blocks (1 s); now aes",
        "2 of 7 proved: aes (0 s); now calls",
        "3 of 7 proved: calls (0 s); now balzenoh",
        "5 of 7 proved: balzenoh_c (0 s); now aes_blocks",
        "7 of 7 proved: aes_blocks_c (",
    ];
    for line in expected {
        assert!(shown.contains(&format!("balzenoh: {line}")), "{line} is missing: {shown}");
    }
    // Nothing is shown where nothing is proved.
    checkout.write("top/crates.txt", &fs::read_to_string(checkout.path("top/crates.txt")).expect("the list"));
    assert!(!told(&checkout.run("script", &["-qec", &cargo, "/dev/null"])).contains("proved"));
}

#[test]
fn the_products_archive_is_enough() {
    let checkout = Checkout::new("alone");
    let alone = checkout.path("alone");
    fs::create_dir(&alone).expect("a folder");
    fs::copy(format!("{ARCHIVES}/libbalzenoh.a"), alone.join("libbalzenoh.a")).expect("the archive");
    // The package's own tests, quickly compiled.
    let output = Command::new(env!("CARGO"))
        .args(["test", "--offline", "--config", "profile.dev.opt-level=0", "--config", "profile.test.opt-level=0"])
        .args(["--test", "calls", "--", "--nocapture", "bare_cipher"])
        .current_dir(HOST)
        .env("CARGO_TARGET_DIR", checkout.path("built"))
        .env("BALZENOH_LIB_DIR", &alone)
        .output()
        .expect("cargo starts");
    let told = told(&output);
    assert!(told.contains("no libaes_blocks.a here") && told.contains("1 passed"), "{told}");
}

/// Where a folder can be made read-only for one process, by a mount that it alone sees.
fn run_read_only(checkout: &Checkout, command: &str) -> Option<Output> {
    let read_only = |command: &str| {
        let top = checkout.path("top");
        let (top, host) = (top.display(), checkout.path("top/host"));
        let mount = format!("mount --bind '{top}' '{top}' && mount -o remount,ro,bind '{top}' && cd '{}'", host.display());
        checkout.run("unshare", &["-rm", "sh", "-c", &format!("{mount} && {command}")])
    };
    let possible = present("unshare") && read_only("true").status.success();
    possible.then(|| read_only(command))
}

#[test]
fn a_checkout_that_cannot_be_written_is_built_in_cargos_folder() {
    let checkout = Checkout::new("read-only");
    let cargo = format!("'{}' {}", env!("CARGO"), CHECK.join(" "));
    let Some(output) = run_read_only(&checkout, &format!("! touch ../probe 2>/dev/null && {cargo}")) else {
        println!("no folder can be made read-only here: skipped");
        return;
    };
    told(&output);
    built_in_cargos_folder(&checkout);
    assert!(!checkout.path("top/target").exists() && !checkout.path("top/probe").exists());
}

/// The same for every user and on every machine: a file is in the place of the folder.
#[test]
fn where_target_is_no_folder_cargos_is_taken() {
    let checkout = Checkout::new("no-folder");
    checkout.write("top/target", "a file");
    checkout.cargo(&CHECK);
    built_in_cargos_folder(&checkout);
    // The copy is renewed when the sources change.
    checkout.write("top/crates/blocks/src/lib.rt", "changed");
    checkout.cargo(&CHECK);
    assert_eq!(checkout.calls().len(), 4);
}

fn built_in_cargos_folder(checkout: &Checkout) {
    let built = fs::canonicalize(checkout.path("built")).expect("cargo's folder");
    let calls = checkout.calls();
    assert_eq!(calls.len(), 2);
    for call in calls {
        assert!(call.contains(&format!(" in {}/", built.display())), "{call}");
    }
}

/// What the build says of the proof.
fn proved(checkout: &Checkout) -> String {
    let told = checkout.cargo(&["check", "--offline", "--lib", "-vv"]);
    let line = told.lines().find_map(|line| line.split_once("BALZENOH_PROVED=")).expect("the line");
    line.1.trim_end().to_string()
}

fn git(checkout: &Checkout, arguments: &[&str]) -> String {
    let names = ["-c", "user.name=test", "-c", "user.email=test@example.com", "-C", ".."];
    told(&checkout.run("git", &[&names, arguments].concat())).trim().to_string()
}

#[test]
fn the_build_knows_what_was_proved() {
    if !present("git") {
        return;
    }
    let checkout = Checkout::new("identity");
    assert_eq!(proved(&checkout), "commit unknown, toolchain a kit for tests");
    git(&checkout, &["init", "--quiet"]);
    checkout.write("top/.gitignore", "target/\n");
    git(&checkout, &["add", "."]);
    git(&checkout, &["commit", "--quiet", "--message", "All"]);
    checkout.write("top/crates/aes/src/lib.rt", "aes");
    let commit = git(&checkout, &["rev-parse", "--short", "HEAD"]);
    assert_eq!(proved(&checkout), format!("commit {commit}, toolchain a kit for tests"));
    checkout.write("top/crates/aes/src/lib.rt", "changed");
    assert_eq!(proved(&checkout), format!("commit {commit}-changed, toolchain a kit for tests"));
    // A commit alone is seen too.
    git(&checkout, &["commit", "--quiet", "--all", "--message", "Changed"]);
    let commit = git(&checkout, &["rev-parse", "--short", "HEAD"]);
    assert_eq!(proved(&checkout), format!("commit {commit}, toolchain a kit for tests"));
}
