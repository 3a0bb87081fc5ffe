//! The program from the outside.

mod bounds;
mod commands;
mod completions;
mod finish;
mod inputs;
mod key_lengths;
mod left_behind;
mod long_lists;
mod manual;
mod messages;
mod modes;
mod options;
#[path = "../support/program.rs"]
mod program;
mod streams;
mod zero_key;

/// What the other tests use of these is not used here.
#[allow(dead_code)]
#[path = "../support"]
mod support {
    pub mod cipher;
    pub mod finish;
    pub mod fips197;
    pub mod mode;
    pub mod pairs;
    pub mod random;
    pub mod sha1;
}

const KEY: &str = "000102030405060708090A0B0C0D0E0F";
const LONG_KEY: &str = "000102030405060708090A0B0C0D0E0F101112131415161718191A1B1C1D1E1F";
const IV: &str = "0123456789ABCDEF0123456789ABCDEF";
