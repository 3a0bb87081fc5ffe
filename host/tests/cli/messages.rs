//! Messages: which value is wrong, what it is, and what it should be.

use std::ffi::OsStr;
use std::os::unix::ffi::OsStrExt;

use crate::program::{digits, Folder};
use crate::{IV, KEY};

#[test]
fn a_refusal_says_which_value_is_wrong() {
    let folder = Folder::new("which");
    folder.write("key", &[0; 17]);
    folder.write("24", &[0; 24]);
    folder.write("odd", format!("{}\n", &KEY[1..]).as_bytes());
    folder.write("many", &vec![b'x'; 16_777_300]);
    folder.write("run", &[0; 20]);
    let lines = [
        ("seal --key $K --iv ${I:2} run", "refusal 2: --iv has 15 bytes, and an IV has 16"),
        ("seal --key ${K:1} --iv $I run", "refusal 1: --key has 31 hexadecimal digits, and a key has 32 or 64"),
        ("seal --key 'no digits' --iv $I run", "refusal 1: --key is not made of hexadecimal digits, and a key has 32 or 64"),
        ("seal --key $K${K:16} --iv $I run", "refusal 1: --key has 24 bytes, and a key has 16 or 32"),
        ("open --key $K$K$K run", "refusal 1: --key has 48 bytes, and a key has 16 or 32"),
        ("seal --key $K${K:1} --iv $I run", "refusal 1: --key has 63 hexadecimal digits, and a key has 32 or 64"),
        ("seal --key @24 --iv $I run", "refusal 1: --key @24 has 24 bytes, and a key has 16 or 32"),
        ("seal --key @key --iv $I run", "refusal 1: --key @key has 17 bytes, and a key has 16 or 32"),
        ("seal --key @odd --iv $I run", "refusal 1: --key @odd has 31 hexadecimal digits, and a key has 32 or 64"),
        ("seal --key @many --iv $I run", "refusal 1: --key @many has more than 256 bytes, and a key has 16 or 32"),
        ("seal --key $K --iv $I many", "refusal 3: many has more than 16,777,215 bytes"),
        ("seal --key $K --iv $I < many", "refusal 3: standard input has more than 16,777,215 bytes"),
        ("open --key $K run", "refusal 3: run has 20 bytes, and a sealed list has 48 to 16,777,248, a multiple of 16"),
        ("open --key $K many", "refusal 3: many has more than 16,777,248 bytes"),
        (
            "seal-run --key $K --iv $I --first 0 run",
            "refusal 3: run has 20 bytes, and a run that is not the last has a multiple of 16",
        ),
        ("check-run --key $K --iv $I --first 0 run", "refusal 3: run has 20 bytes, and a run of ciphertext has a multiple of 16"),
        ("seal-run --key $K --iv $I --first 1048575 --last run", "refusal 4: run has 2 blocks and --first is 1048575"),
        ("seal-run --key $K --iv $I --first 99999999999 --last run", "--first is 99999999999"),
        (
            "jump --mask $I --distance 1048577",
            "refusal 4: --distance is 1048577, and a mask jumps by -1,048,576 to 1,048,576 blocks.",
        ),
        ("jump --mask $I --distance -1048577", "refusal 4: --distance is -1048577, and a mask jumps by -1,048,576 to 1,048,576"),
        ("jump --mask $I --distance=-2147483648", "refusal 4: --distance is -2147483648, and a mask jumps"),
        ("jump --mask $I --distance 4294967296", "refusal 4: --distance is 4294967296, and a mask jumps"),
        ("jump --mask $I --distance -9223372036854775808", "refusal 4: --distance is -9223372036854775808, and"),
        ("jump --mask $I --distance -99999999999999999999", "refusal 4: --distance has 21 characters, and a mask jumps"),
        ("jump --mask 00 --distance -1048577", "refusal 3: --mask has 1 byte, and a mask has 16"),
        ("jump --mask 00 --distance 1", "refusal 3: --mask has 1 byte, and a mask has 16"),
        ("test --key $K --iv $I --tag 0000 $I$I", "refusal 24: RECORD has 32 bytes, and a record has 24"),
        ("test --key $K --iv $I --tag 0000 0000000000000001$I", "refusal 3: --tag has 2 bytes, and a tag has 16"),
        ("join $I 0000000000000001$I", "refusal 24: RECORD 1 has 16 bytes, and a record has 24"),
        ("join 0000000000000001$I @run", "refusal 24: RECORD 2 @run has 20 bytes"),
        (
            "close --key $K --iv $I 0000000000100001$I",
            "refusal 4: RECORD has 1048577 blocks from block 0 on, and a list has 1,048,576 at most",
        ),
        ("join 0000000000000001$I 000FFFFF00000002$I", "refusal 4: RECORD 2 has 2 blocks from block 1048575 on"),
        ("join 0000000000000001$I 0000000200000002$I", "Look at the order of the records"),
    ];
    for (line, message) in lines {
        let told = folder.shell(&format!("$B {line}")).tells(message);
        assert!(!told.stderr.contains(&KEY[2..]), "{}", told.stderr);
    }
}

#[test]
fn a_wrong_command_line_says_what_is_wrong_with_it() {
    let folder = Folder::new("line");
    let lines = [
        ("seal-run --key $K --iv $I --first 0 --last=1", "--last takes no value"),
        ("seal --key $K --iv $I -o ''", "-o needs the name of a file, and has an empty one"),
        ("seal --key $K --iv $I --output=", "--output needs the name of a file, and has an empty one"),
        ("seal --key $K --iv $I ''", "the name of the input is empty"),
        ("seal --key @ --iv $I", "--key has no name after the @"),
        (
            "jump --mask $I --distance 1.5",
            "--distance is 1.5, and must be a whole number in digits, with a hyphen (-) before them where it is negative.",
        ),
        ("jump --mask $I --distance +5", "--distance is +5, and must be a whole number in digits"),
        ("jump --mask $I --distance=--5", "--distance is --5, and must be a whole number in digits"),
        ("jump --mask $I --distance -", "--distance is -, and must be a whole number in digits"),
        ("jump --mask $I --distance \u{2212}5", "--distance is \u{2212}5, and must be a whole number in digits"),
        ("jump --mask $I --distance ''", "--distance is empty, and must be a whole number in digits"),
        ("jump --distance --mask $I", "--distance is --mask, and must be a whole number in digits"),
        ("jump --mask $I --distance", "--distance needs a value"),
        ("jump --mask $I --distance -1 --distance -1", "--distance is given twice"),
        ("jump --mask $I -5", "one of the arguments is no option of this command"),
        ("seal-run --key $K --iv $I --first -1", "--first is -1, and must be a whole number from 0 on"),
        ("seal-run --key $K --iv $I --first=1.5", "--first is 1.5, and must be a whole number from 0 on"),
        ("seal-run --key $K --iv $I --first ''", "--first is empty, and must be a whole number from 0 on"),
        ("seal --key $K --iv $I --threads 257", "--threads is 257, and must be a whole number from 1 to 256"),
        ("seal --key $K --iv $I --runs 0", "--runs is 0, and must be a whole number from 1 on"),
        ("seal --iv $I", "--key is missing"),
        ("seal --key", "--key needs a value"),
        ("seal --key $K --key $K --iv $I", "--key is given twice"),
        ("seal --key $K --iv $I -oone --output two", "--output is given twice"),
        ("seal --key $K --iv $I --fast", "--fast is no option of this command"),
        ("seal --key $K --iv $I -x", "-x is no option of this command"),
        ("seal --key $K --iv $I one two", "one operand at most is taken, and 2 are given"),
        ("close --key $K --iv $I", "RECORD is missing"),
        ("demo one", "no operand is taken, and 1 is given"),
    ];
    for (line, message) in lines {
        let told = folder.shell(&format!("$B {line}")).exits(64).tells(message);
        let command = line.split(' ').next().expect("a command");
        assert!(told.stderr.contains(&format!("`balzenoh {command} --help`")), "{}", told.stderr);
    }
    folder.shell("$B").exits(64).tells("`balzenoh --help`");
    folder.shell("$B unseal").exits(64).tells("there is no command unseal");
}

#[test]
fn no_key_is_repeated() {
    let folder = Folder::new("repeated");
    for line in ["--kay=$K", "--key$K", "-k$K", "--$K", "-$K", "--first $K", "--first=$K"] {
        let told = folder.shell(&format!("$B seal-run --iv $I {line}")).exits(64);
        assert!(!told.stderr.contains(&KEY[4..12]), "{}", told.stderr);
    }
    for line in ["$K", "jump --mask $I --distance $K", "jump --mask $I --distance=-$K"] {
        let told = folder.shell(&format!("$B {line}")).exits(64);
        assert!(!told.stderr.contains(&KEY[4..12]), "{}", told.stderr);
    }
}

#[test]
fn names_need_not_be_text() {
    let folder = Folder::new("bytes");
    folder.write("key", &digits(KEY));
    let odd = OsStr::from_bytes(b"\xFFname\x1B");
    std::fs::copy(folder.path().join("key"), folder.path().join(odd)).expect("a copy");
    let joined = |front: &[u8]| OsStr::from_bytes(&[front, odd.as_bytes()].concat()).to_owned();
    let seal = |key: &OsStr, rest: &[&OsStr]| {
        let mut line = vec![OsStr::new("seal").to_owned(), key.to_owned(), OsStr::new("--iv").to_owned(), IV.into()];
        line.extend(rest.iter().map(|&argument| argument.to_owned()));
        folder.feed(&line, b"a list")
    };
    let sealed = seal(OsStr::new("--key=@key"), &[]).exits(0).stdout;
    seal(&joined(b"--key=@"), &[]).exits(0).prints(&sealed);
    seal(OsStr::new("--key=@key"), &[&joined(b"-oout-")]).exits(0).prints(b"");
    seal(OsStr::new("--key=@key"), &[&joined(b"--output=new-")]).exits(0).prints(b"");
    for front in [&b"out-"[..], b"new-"] {
        assert_eq!(std::fs::read(folder.path().join(joined(front))).expect("the answer"), sealed);
    }
    // Messages show such names without the bytes that a terminal would obey.
    let told = seal(&joined(b"--key=@missing"), &[]).exits(74).tells("missing");
    assert!(!told.stderr.contains('\u{1B}'), "{:?}", told.stderr);
    seal(&joined(b"--key=@key --"), &[]).exits(74);
    seal(OsStr::new("--key=@key"), &[&joined(b"--")]).exits(64).tells("no option of this command");
}

#[test]
fn a_file_that_cannot_be_read_is_named_with_its_option() {
    let folder = Folder::new("named");
    folder.shell("$B seal --key=@name --iv $I").exits(74).tells("--key: name cannot be read: ");
    folder.shell("$B seal --key $K --iv $I name").exits(74).tells("name cannot be read: ");
    folder.shell("$B join @name").exits(74).tells("RECORD 1: name cannot be read: ");
    folder.shell("$B seal --key $K --iv $I -o missing/name").exits(74).tells("missing/name cannot be written: ");
    folder.shell("$B seal --key $K --iv $I -o .").exits(74).tells("it is a folder");
}
