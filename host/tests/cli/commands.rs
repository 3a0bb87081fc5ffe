//! Every command, and the exit statuses.

use crate::program::{digits, Folder};
use crate::{IV, KEY};

const M1: &str = "00112233445566778899AABBCCDDEEFF";
const C1: &str = "030F28E63B8A9C570D7FEF31940226F4";
const A1: &str = "C31FDB743AA199CB78AA156AED162EB9";
const TAG: &str = "CBBD199D075F7220957FD8205A233B9F";

/// The record of the paper's one block.
fn record() -> String {
    format!("0000000000000001{A1}")
}

#[test]
fn a_list_is_sealed_and_opened() {
    let folder = Folder::new("list");
    folder.write("list", b"parcel 1 -> cage 2\n");
    folder.run(&["seal", "--key", KEY, "--iv", IV, "list", "-o", "sealed"]).exits(0).prints(b"");
    let sealed = folder.read("sealed").expect("the sealed list");
    assert_eq!(sealed.len(), 64);
    folder.run(&["open", "--key", KEY, "sealed", "-o", "opened"]).exits(0).prints(b"");
    assert_eq!(folder.read("opened"), folder.read("list"));
    // The same over standard input and output, with the input named - or not at all.
    for input in [&["-"][..], &[]] {
        let arguments = [&["seal", "--key", KEY, "--iv", IV][..], input].concat();
        folder.feed(&arguments, b"parcel 1 -> cage 2\n").exits(0).prints(&sealed);
        folder.feed(&[&arguments[..], &["-o", "-"]].concat(), b"parcel 1 -> cage 2\n").exits(0).prints(&sealed);
        folder.feed(&[&["open", "--key", KEY][..], input].concat(), &sealed).exits(0).prints(b"parcel 1 -> cage 2\n");
    }
    assert_eq!(folder.names(), ["list", "opened", "sealed"]);
}

#[test]
fn runs_and_threads_give_the_same_bytes() {
    let folder = Folder::new("spread");
    let list: Vec<u8> = (0..50_000_u32).map(|at| ((at * at) >> 5) as u8).collect();
    folder.write("list", &list);
    let seal = ["seal", "--key", KEY, "--iv", IV, "list"];
    let whole = folder.run(&seal).exits(0).stdout;
    for spread in [&["--runs", "7"][..], &["--threads", "2"], &["--runs=9", "--threads=3"], &["--runs", "99999"]] {
        folder.run(&[&seal[..], spread].concat()).exits(0).prints(&whole);
    }
    folder.run(&[&seal[..], &["--runs", "0"]].concat()).exits(64);
    folder.run(&[&seal[..], &["--threads", "257"]].concat()).exits(64);
    folder.run(&["seal", "--key", "00", "--iv", "00", "--runs", "2", "list"]).exits(1);
    folder.run(&["seal", "--key", KEY, "--iv", "00", "--runs", "2", "list"]).exits(2);
}

#[test]
fn the_papers_vector_goes_through_runs() {
    let folder = Folder::new("vector");
    folder.write("m1", &digits(M1));
    folder.write("c1", &digits(C1));
    let under = ["--key", KEY, "--iv", IV];
    let sealed = folder.run(&[&["seal-run", "--first", "0", "m1"][..], &under].concat()).exits(0);
    sealed.prints(&digits(C1));
    assert_eq!(sealed.stderr.trim(), record());
    let to_files = ["seal-run", "--first", "0", "m1", "-o", "run", "--record", "rec"];
    assert_eq!(folder.run(&[&to_files[..], &under].concat()).exits(0).stderr, "");
    assert_eq!(folder.read("run"), Some(digits(C1)));
    assert_eq!(folder.read("rec"), Some(digits(&record())));
    let check = [&["check-run", "--first", "0", "c1"][..], &under].concat();
    folder.run(&check).exits(0).prints(format!("{}\n", record()).as_bytes());
    folder.run(&[&check[..], &["--record", "again"]].concat()).exits(0).prints(b"");
    assert_eq!(folder.read("again"), folder.read("rec"));
    folder.run(&[&["close", "@rec"][..], &under].concat()).exits(0).prints(format!("{TAG}\n").as_bytes());
    folder.run(&[&["close", &record(), "-o", "tag"][..], &under].concat()).exits(0).prints(b"");
    assert_eq!(folder.read("tag"), Some(digits(TAG)));
    folder.run(&[&["test", "--tag", "@tag", "@rec"][..], &under].concat()).exits(0).prints(b"passes\n");
    folder.run(&[&["test", "--tag", IV, "@rec"][..], &under].concat()).exits(6).prints(b"");
}

#[test]
fn a_list_is_put_together_from_runs() {
    let folder = Folder::new("together");
    let list: Vec<u8> = (0..100).collect();
    let under = ["--key", KEY, "--iv", IV];
    let runs = [("0", &list[..32], "--first=0"), ("1", &list[32..80], "--first=2"), ("2", &list[80..], "--first=5")];
    for (name, bytes, first) in runs {
        let (run, record) = (format!("run{name}"), format!("rec{name}"));
        let last = if name == "2" { &["--last"][..] } else { &[] };
        let arguments = [&["seal-run", first, "-o", &run, "--record", &record][..], last, &under].concat();
        folder.feed(&arguments, bytes).exits(0);
    }
    folder.run(&["join", "@rec1", "@rec2", "--record", "right"]).exits(0);
    let pairs = folder.run(&["join", "@rec0", "@right"]).exits(0).stdout;
    folder.run(&["join", "@rec0", "@rec1", "@rec2"]).exits(0).prints(&pairs);
    folder.run(&["join", "@rec1"]).exits(0);
    folder.run(&["join", "@rec0", "@rec2"]).exits(8);
    folder.run(&["join"]).exits(9);
    // A printed record, with its line end, serves as a file too.
    folder.write("whole", &pairs);
    folder.run(&[&["close", "@whole", "-o", "tag"][..], &under].concat()).exits(0);
    let parts = ["run0", "run1", "run2", "tag"].map(|name| folder.read(name).expect("a part"));
    let sealed = [digits(IV), parts.concat()].concat();
    folder.feed(&["open", "--key", KEY], &sealed).exits(0).prints(&list);
    folder.run(&[&["close", "@rec1"][..], &under].concat()).exits(9);
}

#[test]
fn a_refusal_leaves_nothing_behind() {
    let folder = Folder::new("refusal");
    folder.write("sealed", &[7; 64]);
    folder.write("list", b"the list of yesterday");
    let refused = folder.run(&["open", "--key", KEY, "sealed", "-o", "list"]).exits(6);
    refused.prints(b"");
    assert!(refused.stderr.contains("Do not use this list"), "{}", refused.stderr);
    assert_eq!(folder.names(), ["sealed"]);
    // So with both files of a run, and where the input cannot be read.
    folder.write("run", b"yesterday");
    folder.write("rec", b"yesterday");
    folder.feed(&["seal-run", "--key", KEY, "--iv", IV, "--first", "1048576", "-o", "run", "--record", "rec"], &[0; 16]).exits(4);
    assert_eq!(folder.names(), ["sealed"]);
    folder.write("list", b"the list of yesterday");
    folder.run(&["open", "--key", KEY, "missing", "-o", "list"]).exits(74);
    assert_eq!(folder.names(), ["sealed"]);
}

#[test]
fn wrong_usage_leaves_files_alone() {
    let folder = Folder::new("usage");
    folder.write("list", b"a list");
    folder.write("key", &digits(KEY));
    folder.run(&["open", "--key", KEY, "./list", "-o", "list"]).exits(64);
    folder.run(&["open", "--key", "@key", "list", "-o", "key"]).exits(64);
    folder.run(&["seal-run", "--key", KEY, "--iv", IV, "--first", "0", "list", "-o", "new", "--record", "./new"]).exits(64);
    assert_eq!(folder.read("list"), Some(b"a list".to_vec()));
    assert_eq!(folder.names(), ["key", "list"]);
    // A folder is not replaced.
    folder.feed(&["seal", "--key", KEY, "--iv", IV, "-o", "."], b"").exits(74);
    folder.feed(&["seal", "--key", KEY, "--iv", IV, "-o", "missing/sealed"], b"").exits(74);
    assert_eq!(folder.names(), ["key", "list"]);
}

#[test]
fn wrong_lengths_get_the_librarys_numbers() {
    let folder = Folder::new("lengths");
    let (record, short) = (record(), "00112233445566778899AABBCCDDEE");
    let expected: [(u8, &[&str]); 14] = [
        (1, &["seal", "--key", short, "--iv", short]),
        (2, &["seal", "--key", KEY, "--iv", short]),
        (1, &["open", "--key", ""]),
        (3, &["open", "--key", KEY]),
        (1, &["seal-run", "--key", short, "--iv", IV, "--first", "0"]),
        (4, &["seal-run", "--key", KEY, "--iv", IV, "--first", "1048577"]),
        (2, &["check-run", "--key", KEY, "--iv", short, "--first", "0"]),
        (4, &["check-run", "--key", KEY, "--iv", IV, "--first", "4294967295"]),
        (24, &["join", &record, short]),
        (24, &["join", &record[..46], &format!("{record}00"), &record]),
        (24, &["close", "--key", short, "--iv", short, short]),
        (1, &["close", "--key", short, "--iv", short, &record]),
        (3, &["test", "--key", KEY, "--iv", IV, "--tag", short, &record]),
        (3, &["jump", "--mask", short, "--distance", "2000000"]),
    ];
    for (number, arguments) in expected {
        folder.feed(arguments, b"").exits(i32::from(number)).prints(b"");
    }
    folder.feed(&["seal", "--key", KEY, "--iv", IV], &vec![0; 16_777_216]).exits(3);
    folder.feed(&["seal", "--key", KEY, "--iv", IV], &vec![0; 16_777_215]).exits(0);
    folder.feed(&["seal-run", "--key", KEY, "--iv", IV, "--first", "0"], &[0; 15]).exits(3);
    folder.feed(&["check-run", "--key", KEY, "--iv", IV, "--first", "0"], &[0; 15]).exits(3);
    // Row 7's example.
    folder.feed(&["open", "--key", KEY], &digits(&[IV, C1, TAG].concat())).exits(7).prints(b"");
}

#[test]
fn masks_jump() {
    let folder = Folder::new("masks");
    let one = "00000000000000000000000000000001";
    let jump = |distance| folder.run(&["jump", "--mask", one, "--distance", distance]);
    for (distance, printed) in [
        ("0", one),
        ("-0", one),
        ("127", "80000000000000000000000000000000"),
        ("128", "00000000000000000000000000000087"),
        ("-1", "80000000000000000000000000000043"),
        ("-001", "80000000000000000000000000000043"),
    ] {
        jump(distance).exits(0).prints(format!("{printed}\n").as_bytes());
        let joined = format!("--distance={distance}");
        folder.run(&["jump", &joined, "--mask", one]).exits(0).prints(format!("{printed}\n").as_bytes());
    }
    for distance in ["1048576", "4001", "-1", "-1048576"] {
        let there = jump(distance).exits(0).text();
        let opposite = (-distance.parse::<i32>().expect("a number")).to_string();
        folder.run(&["jump", "--distance", &opposite, "--mask", there.trim()]).exits(0).prints(format!("{one}\n").as_bytes());
    }
}

/// The numbers beyond 32 and 64 bits would be small ones if their upper bits were lost.
#[test]
fn masks_jump_no_further_than_the_limit() {
    let folder = Folder::new("far");
    for number in ["1048577", "2147483647", "2147483648", "4294967297", "18446744073709551617", "99999999999999999999999"] {
        for distance in [number.to_string(), format!("-{number}")] {
            folder.run(&["jump", "--mask", IV, "--distance", &distance]).exits(4).prints(b"");
        }
    }
}

/// Text that is no number in digits, or has another sign than a hyphen.
#[test]
fn a_distance_is_a_number() {
    let folder = Folder::new("distance");
    for distance in
        ["", "-", "--", "--5", "- 5", "-5-", "+5", "-+5", "5.0", "-1,048,576", "0x5", "\u{2212}5", "\u{2013}5", "\u{665}"]
    {
        for arguments in [&["--distance", distance][..], &[&format!("--distance={distance}")]] {
            let line = [&["jump", "--mask", IV][..], arguments].concat();
            folder.run(&line).exits(64).tells("must be a whole number in digits").prints(b"");
        }
    }
}

#[test]
fn values_come_from_files_as_bytes_or_digits() {
    let folder = Folder::new("values");
    folder.write("raw", &digits(KEY));
    folder.write("digits", format!("{KEY}\n").as_bytes());
    folder.write("lower", KEY.to_lowercase().as_bytes());
    folder.write("short", &[0; 15]);
    folder.write("empty", b"");
    // 16 characters are 16 bytes, also where they could be digits.
    folder.write("sixteen", b"0123456789abcdef");
    let seal = |key: &str| folder.feed(&["seal", "--key", key, "--iv", IV], b"list");
    let sealed = seal(KEY).exits(0).stdout;
    for file in ["@raw", "@digits", "@lower"] {
        seal(file).exits(0).prints(&sealed);
    }
    let sixteen = seal("30313233343536373839616263646566").exits(0).stdout;
    seal("@sixteen").exits(0).prints(&sixteen);
    seal("@short").exits(1);
    seal("@empty").exits(1);
    seal("@missing").exits(74);
}

#[test]
fn wrong_command_lines_are_told() {
    let folder = Folder::new("wrong");
    let lines: [&[&str]; 10] = [
        &[],
        &["unseal"],
        &["seal", "--iv", IV],
        &["seal", "--key", KEY, "--iv", IV, "--fast"],
        &["seal", &format!("--kay={KEY}"), "--iv", IV],
        &["seal", "--key", KEY, "--key", KEY, "--iv", IV],
        &["seal", "--key", KEY, "--iv", IV, "one", "two"],
        &["seal", "--key"],
        &["close", "--key", KEY, "--iv", IV],
        &["seal-run", "--key", KEY, "--iv", IV, "--first", "one"],
    ];
    for line in lines {
        let told = folder.feed(line, b"").exits(64);
        told.prints(b"");
        assert!(told.stderr.contains("--help") && !told.stderr.contains(KEY), "{line:?}: {}", told.stderr);
    }
}

#[test]
fn every_command_has_its_help() {
    let folder = Folder::new("help");
    let global = String::from_utf8(folder.run(&["--help"]).exits(0).stdout).expect("text");
    assert!(global.contains("REMOVED") && global.contains("EXIT STATUS"));
    for command in ["seal", "open", "check", "seal-run", "check-run", "join", "close", "test", "jump", "sha1", "demo"] {
        assert!(global.contains(&format!("\n  {command} ")));
        let help = folder.run(&[command, "--help"]).exits(0).stdout;
        assert!(help.starts_with(format!("balzenoh {command}").as_bytes()));
    }
}

#[test]
fn the_demonstration_goes_well() {
    let folder = Folder::new("demo");
    let told = String::from_utf8(folder.run(&["demo"]).exits(0).stdout).expect("text");
    assert!(told.contains("refused with 6") && told.contains("refused with 8"));
    assert!(told.trim_end().ends_with("8 of 8 checks as they should be.") && !told.contains("WRONG"));
    let readme = std::fs::read_to_string(concat!(env!("CARGO_MANIFEST_DIR"), "/../README.md")).expect("the page");
    assert!(readme.contains(&format!("```text\n{told}```")), "README does not have what the demonstration prints");
}
