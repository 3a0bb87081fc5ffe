//! No table is indexed by data in the engine that works the S-box out, nor does it branch on data: its sources are read for that.
//!
//! It is a test and no proof, and says nothing of what the compiler makes of the sources. An index is a `usize`, data are bytes and words, and the
//! language has no way from one to the other but a cast. So no cast to `usize` may stand there, and every condition must be on counters. One byte is
//! excepted, in the lines of `NUMBER_OF_ROUNDS` and nowhere else: a schedule carries the number of its rounds, which is the key's length's.

use std::fs;
use std::path::{Path, PathBuf};

/// The engine, the steps below it, and the groups and blocks that it takes its input from.
const TABLE_FREE: [&str; 5] =
    ["aes_arithmetic/src", "aes_steps/src", "groups/src", "blocks/src/words.rt", "blocks/src/block.rt"];

/// What may be compared: counters of blocks, rounds, words and bytes, and what is counted from the key's length; `rev` has a loop count down.
const COUNTERS: [&str; 11] = ["i", "n", "from", "to", "in", "left", "words", "BLOCKS", "nk", "end", "rev"];

/// All that is done with the byte of a schedule that is no data, in this order: its place, how it is written, and the two casts of it.
const NUMBER_OF_ROUNDS: [&str; 5] = [
    "use crate::schedule::{BYTES, ROUNDS};",
    "self.schedule[ROUNDS] as usize",
    "self.schedule[ROUNDS] as usize / 2",
    "pub(crate) const ROUNDS: usize = 240;",
    "w[ROUNDS] = (end / 4 + 6) as u8;",
];

/// Where the counters that a key gives come from: its length.
const FROM_THE_KEY: [&str; 3] = ["let nk = key.len() / 4;", "let end = 4 * (nk + 7);", "let end = key.len();"];

fn sources(path: &Path) -> Vec<PathBuf> {
    if path.is_file() {
        return vec![path.to_path_buf()];
    }
    let entries = fs::read_dir(path).expect("a folder of sources").map(|entry| entry.expect("an entry").path());
    let mut entries: Vec<PathBuf> = entries.collect();
    entries.sort();
    entries.iter().flat_map(|entry| sources(entry)).collect()
}

/// The code alone, line by line: no comments, and nothing of the contracts.
fn code(path: &Path) -> Vec<String> {
    let text = fs::read_to_string(path).expect("a source");
    let contract = |line: &&str| ["ghost use", "requires", "ensures"].iter().any(|start| line.starts_with(start));
    let lines = text.lines().map(|line| line.split("//").next().unwrap_or_default().trim());
    lines.filter(|line| !contract(line)).map(str::to_string).collect()
}

fn lines_of(names: &[&str]) -> Vec<String> {
    let crates = Path::new(env!("CARGO_MANIFEST_DIR")).join("../crates");
    names.iter().flat_map(|name| sources(&crates.join(name))).flat_map(|path| code(&path)).collect()
}

fn words(text: &str) -> impl Iterator<Item = &str> {
    text.split(|c: char| !c.is_alphanumeric() && c != '_').filter(|word| !word.is_empty())
}

/// A number becomes an index.
fn casts(line: &str) -> bool {
    line.contains("as usize")
}

/// What chooses or stops by a closure's answer, and so is a condition in another form.
const CHOOSERS: [&str; 10] =
    ["filter", "find", "position", "any", "all", "take_while", "skip_while", "then", "then_some", "is_some_and"];

/// A condition that names anything but counters and numbers. The `for` of an `impl` is none.
fn branches_on_data(line: &str) -> bool {
    let condition = line.split('{').next().unwrap_or_default();
    if words(condition).next() == Some("impl") {
        return false;
    }
    let mut told = words(condition).skip_while(|word| !["if", "while", "for", "match"].contains(word)).skip(1);
    let number = |word: &str| word.starts_with(|c: char| c.is_ascii_digit());
    told.any(|word| !COUNTERS.contains(&word) && !number(word)) || words(line).any(|word| CHOOSERS.contains(&word))
}

/// A line that gives one of the two counters that a key gives its value.
fn sets_from_the_key(line: &str) -> bool {
    words(line).find(|word| !["let", "mut"].contains(word)).is_some_and(|word| ["nk", "end"].contains(&word))
}

#[test]
fn no_byte_of_data_becomes_an_index() {
    let lines = lines_of(&TABLE_FREE);
    assert!(lines.len() > 300, "too few lines were read: {}", lines.len());
    let rounds: Vec<&String> = lines.iter().filter(|line| words(line).any(|word| word == "ROUNDS")).collect();
    assert_eq!(rounds, NUMBER_OF_ROUNDS);
    for line in lines.iter().filter(|line| !NUMBER_OF_ROUNDS.contains(&line.as_str())) {
        assert!(!casts(line), "{line}");
    }
    // In the engine of tables it is found, forwards, backwards and in the key schedule.
    assert_eq!(lines_of(&["aes_tables/src"]).iter().filter(|line| casts(line)).count(), 6);
}

#[test]
fn nothing_branches_on_data() {
    for line in lines_of(&TABLE_FREE) {
        assert!(!branches_on_data(&line), "{line}");
        assert!(!sets_from_the_key(&line) || FROM_THE_KEY.contains(&line.as_str()), "{line}");
    }
    // A test of a byte is found, and a loop is none.
    assert!(branches_on_data("if s[i] == 0 {") && branches_on_data("let r = if a { b } else { c };"));
    assert!(branches_on_data("s.iter().any(|byte| *byte == 0)"));
    assert!(!branches_on_data("while i < 16 {") && !branches_on_data("for i in 0..16 {"));
    assert!(!branches_on_data("for i in (from..to).rev() {") && !branches_on_data("impl SBox for Arithmetic {"));
    assert!(sets_from_the_key("let mut end = w[0];") && sets_from_the_key("nk += 1;") && !sets_from_the_key("let mut i = nk;"));
}
