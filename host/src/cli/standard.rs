//! The standard streams.
//!
//! They are read and written through copies of their descriptors. The language's own handles hide that a descriptor cannot be read
//! or written: they read nothing from it, and drop what is written.

use std::ffi::OsStr;
use std::fmt::Display;
use std::fs::{self, File};
use std::io::{self, Error, Read, Write};
use std::os::fd::AsFd;
use std::os::unix::fs::MetadataExt;

use super::failure::Failure;

/// Says something on standard error. Where that fails there is nobody to tell, and nothing changes.
pub fn say(message: impl Display) {
    let _ = io::stderr().write_all(format!("balzenoh: {message}\n").as_bytes());
}

/// Writes text for people to standard output.
pub fn print(text: &str) -> Result<(), Failure> {
    written("standard output", copy_of(io::stdout()), text.as_bytes())
}

/// Writes an answer to standard output. An answer must not be lost.
pub fn answer(bytes: &[u8]) -> Result<(), Failure> {
    written("standard output", open(io::stdout()), bytes)
}

/// Writes an answer to standard error.
pub fn answer_on_error(bytes: &[u8]) -> Result<(), Failure> {
    written("standard error", open(io::stderr()), bytes)
}

fn written(name: &str, stream: io::Result<File>, bytes: &[u8]) -> Result<(), Failure> {
    let result = stream.and_then(|mut stream| stream.write_all(bytes));
    result.map_err(|error| Failure::unwritable(OsStr::new(name), &error))
}

/// A parent may have opened the null device in the same way.
const CLOSED: &str =
    "it is closed, or is the null device open for reading and writing, which looks the same. Name /dev/null to mean it";

/// A stream as a file, unless it was closed when the program started. By the time that the program sees it, the language's
/// runtime has opened the null device in its place, for reading and writing, and that is what is looked for.
pub fn open(stream: impl AsFd) -> io::Result<File> {
    let mut copy = copy_of(stream)?;
    let device = copy.metadata()?.rdev();
    let is_null = fs::metadata("/dev/null").is_ok_and(|null| null.rdev() == device);
    if is_null && copy.read(&mut [0]).is_ok() && copy.write(&[0]).is_ok() {
        return Err(Error::other(CLOSED));
    }
    Ok(copy)
}

fn copy_of(stream: impl AsFd) -> io::Result<File> {
    stream.as_fd().try_clone_to_owned().map(File::from)
}
