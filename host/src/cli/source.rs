//! Where something is read from: a file, or standard input.

use std::ffi::{OsStr, OsString};
use std::fs::File;
use std::io::{self, Read};
use std::os::unix::ffi::OsStrExt;
use std::path::PathBuf;

use super::identity::Identity;
use super::standard;

pub enum Source {
    Standard,
    File(PathBuf),
}

impl Source {
    /// The source that a value of the form `@FILE` names.
    pub fn of_value(value: &OsStr) -> Option<Self> {
        let name = value.as_bytes().strip_prefix(b"@")?;
        Some(Self::named(OsStr::from_bytes(name)))
    }

    /// The input: the operand, or standard input where there is none.
    pub fn of_input(operand: Option<&OsString>) -> Self {
        operand.map_or(Self::Standard, |name| Self::named(name))
    }

    fn named(name: &OsStr) -> Self {
        if name == "-" {
            return Self::Standard;
        }
        Self::File(PathBuf::from(name))
    }

    /// How messages call it.
    pub fn name(&self) -> &OsStr {
        match self {
            Self::Standard => OsStr::new("standard input"),
            Self::File(path) => path.as_os_str(),
        }
    }

    pub fn identity(&self) -> Option<Identity> {
        match self {
            Self::Standard => Identity::of_stream(io::stdin()),
            Self::File(path) => Identity::of_file(path),
        }
    }

    /// Reads all, but no more than one byte beyond `most`.
    pub fn read(&self, most: usize) -> io::Result<Vec<u8>> {
        match self {
            Self::Standard => read_bounded(standard::open(io::stdin())?, most),
            Self::File(path) => read_bounded(File::open(path)?, most),
        }
    }
}

/// Where it is known how much there is, room is made for that at once, and for no more.
fn read_bounded(file: File, most: usize) -> io::Result<Vec<u8>> {
    let most = most as u64 + 1;
    let known = file.metadata().map_or(0, |found| found.len().min(most));
    let mut bytes = Vec::with_capacity(known as usize);
    file.take(most).read_to_end(&mut bytes)?;
    Ok(bytes)
}
