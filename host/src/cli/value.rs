//! Short values: a key, IV, tag, mask or record, as hexadecimal digits or in a file.

use std::ffi::OsStr;
use std::os::unix::ffi::OsStrExt;

use balzenoh::sizes::{BLOCK, DIGEST, KEYS, RECORD as RECORD_SIZE};
use balzenoh::{hex, Finish, Refusal};

use super::args::Args;
use super::failure::Failure;
use super::faults::Faults;
use super::names::{counted, shown};
use super::source::Source;
use super::table;

/// What a value is called, the numbers of bytes that it can have, the least one first, and the refusal of any other.
pub struct Kind {
    what: &'static str,
    sizes: &'static [usize],
    refusal: Refusal,
}

const KEY: Kind = Kind { what: "a key", sizes: &KEYS, refusal: Refusal::KeyLength };
const IV: Kind = Kind { what: "an IV", sizes: &[BLOCK], refusal: Refusal::IvLength };
const TAG: Kind = Kind { what: "a tag", sizes: &[BLOCK], refusal: Refusal::Length };
const TAG_SHA1: Kind = Kind { what: "a tag with --finish sha1", sizes: &[DIGEST], refusal: Refusal::Length };
const MASK: Kind = Kind { what: "a mask", sizes: &[BLOCK], refusal: Refusal::Length };
const RECORD: Kind = Kind { what: "a record", sizes: &[RECORD_SIZE], refusal: Refusal::RecordLength };

/// A file that holds more is no value: it has room for the digits of the longest value, and some space around them.
const LONGEST: usize = 256;

/// What was found in the place of a value.
enum Found {
    Bytes(Vec<u8>),
    /// An odd number of digits.
    Odd(usize),
    NoDigits,
    TooLong,
}

pub fn key(args: &Args, faults: &mut Faults) -> Result<Vec<u8>, Failure> {
    option(args, table::KEY, &KEY, faults)
}

pub fn iv(args: &Args, faults: &mut Faults) -> Result<Vec<u8>, Failure> {
    option(args, table::IV, &IV, faults)
}

pub fn tag(args: &Args, finish: Finish, faults: &mut Faults) -> Result<Vec<u8>, Failure> {
    let kind = match finish {
        Finish::Cipher => &TAG,
        Finish::Sha1 => &TAG_SHA1,
    };
    option(args, table::TAG, kind, faults)
}

pub fn mask(args: &Args, faults: &mut Faults) -> Result<Vec<u8>, Failure> {
    option(args, table::MASK, &MASK, faults)
}

/// The record that is an operand, under the name that messages give it.
pub fn record(name: &str, operand: &OsStr, faults: &mut Faults) -> Result<Vec<u8>, Failure> {
    read(name, operand, &RECORD, faults)
}

fn option(args: &Args, name: &str, kind: &Kind, faults: &mut Faults) -> Result<Vec<u8>, Failure> {
    read(name, args.value(name).unwrap_or_default(), kind, faults)
}

/// Reads a value. One that cannot be right is handed on with its wrong length, or with no byte where it is not made of bytes: the
/// library is to refuse it.
fn read(name: &str, value: &OsStr, kind: &Kind, faults: &mut Faults) -> Result<Vec<u8>, Failure> {
    let (name, found) = match Source::of_value(value) {
        None => (name.to_string(), in_text(value.as_bytes())),
        Some(source) => {
            let bytes = source.read(LONGEST).map_err(|error| match Failure::unreadable(source.name(), &error) {
                Failure::File(what) => Failure::File(format!("{name}: {what}")),
                other => other,
            })?;
            (format!("{name} {}", shown(value)), in_file(bytes, kind.sizes))
        }
    };
    if let Some(fault) = fault(&name, &found, kind) {
        faults.add(kind.refusal, fault);
    }
    Ok(match found {
        Found::Bytes(bytes) => bytes,
        _ => Vec::new(),
    })
}

fn in_text(text: &[u8]) -> Found {
    if !text.iter().all(u8::is_ascii_hexdigit) {
        return Found::NoDigits;
    }
    let decoded = std::str::from_utf8(text).ok().and_then(|text| hex::decode(text).ok());
    decoded.map_or(Found::Odd(text.len()), Found::Bytes)
}

/// A file of the least size is taken as it is. One of another size may hold digits and a line end, or else is taken as it is: the
/// digits of a short key, none or one of them missing, may be as many bytes as a long key has.
fn in_file(bytes: Vec<u8>, sizes: &[usize]) -> Found {
    if bytes.len() > LONGEST {
        return Found::TooLong;
    }
    if bytes.len() == sizes[0] || bytes.trim_ascii().is_empty() {
        return Found::Bytes(bytes);
    }
    match in_text(bytes.trim_ascii()) {
        Found::NoDigits => Found::Bytes(bytes),
        digits => digits,
    }
}

/// What is wrong with a value, if anything. The value itself may be a key, and is not repeated.
fn fault(name: &str, found: &Found, Kind { what, sizes, .. }: &Kind) -> Option<String> {
    let (size, digits) = (one_of(sizes, 1), one_of(sizes, 2));
    Some(match found {
        Found::Bytes(bytes) if sizes.contains(&bytes.len()) => return None,
        Found::Bytes(bytes) => format!("{name} has {}, and {what} has {size}", counted(bytes.len(), "byte")),
        Found::Odd(number) => format!("{name} has {}, and {what} has {digits}", counted(*number, "hexadecimal digit")),
        Found::NoDigits => {
            format!("{name} is not made of hexadecimal digits, and {what} has {digits}; a file is named with @ before it")
        }
        Found::TooLong => format!("{name} has more than {LONGEST} bytes, and {what} has {size}"),
    })
}

/// The sizes, each so many times, with a word between them.
fn one_of(sizes: &[usize], times: usize) -> String {
    sizes.iter().map(|size| (times * size).to_string()).collect::<Vec<_>>().join(" or ")
}
