//! Where an answer goes: a standard stream, a file, or a device.

use std::ffi::OsStr;
use std::fs::{self, Metadata, OpenOptions};
use std::io::{self, Write};
use std::os::unix::fs::{FileTypeExt, MetadataExt};
use std::path::{Path, PathBuf};

use super::failure::Failure;
use super::identity::{folder_of, Identity};
use super::names::shown;
use super::replace::{replace, PRIVATE, USUAL};

pub enum Destination {
    /// A standard stream: the one that was named, or the usual one.
    Named,
    Usual,
    /// A regular file, or none yet, all links followed.
    File(PathBuf),
    /// A character device or a pipe, which is written and stays.
    Device(PathBuf),
    /// What cannot be written, and why.
    Unusable(String),
}

/// The names of standard output.
const STANDARD: [&str; 4] = ["-", "/dev/stdout", "/dev/fd/1", "/proc/self/fd/1"];
/// More links than this are taken for a ring, as the system does.
const MOST_LINKS: usize = 40;

impl Destination {
    pub fn new(name: Option<&OsStr>) -> Self {
        match name {
            None => Self::Usual,
            Some(name) if STANDARD.iter().any(|standard| name == *standard) => Self::Named,
            Some(name) => Self::at(Path::new(name)),
        }
    }

    fn at(name: &Path) -> Self {
        let target = target(name);
        let unusable = |why: &str| Self::Unusable(format!("{} cannot be written: {why}", shown(name)));
        match fs::metadata(name) {
            Ok(found) if found.is_dir() => unusable("it is a folder"),
            Ok(found) if found.file_type().is_block_device() => unusable("it is a block device"),
            Ok(found) if !found.is_file() => Self::Device(name.to_path_buf()),
            Ok(found) if !is_at(&target, &found) => unusable("it has no name any more"),
            Err(_) if target.is_symlink() => unusable("its links go round in a ring"),
            _ => Self::File(target),
        }
    }

    /// The regular file that is to be written, or that is to be made.
    pub fn identity(&self) -> Option<Identity> {
        match self {
            Self::File(path) => Identity::of_place(path),
            _ => None,
        }
    }

    pub fn require_usable(&self) -> Result<(), Failure> {
        match self {
            Self::Unusable(why) => Err(Failure::File(why.clone())),
            _ => Ok(()),
        }
    }

    /// Writes bytes to a file or device, or hands them to a stream. A new file that is private is for its owner alone.
    pub fn write(&self, bytes: &[u8], private: bool, stream: impl FnOnce(&[u8]) -> Result<(), Failure>) -> Result<(), Failure> {
        let (path, written) = match self {
            Self::Named | Self::Usual => return stream(bytes),
            Self::Unusable(_) => return self.require_usable(),
            Self::File(path) => (path, replace(path, bytes, if private { PRIVATE } else { USUAL })),
            Self::Device(path) => (path, write_device(path, bytes)),
        };
        written.map_err(|error| Failure::unwritable(path, &error))
    }
}

fn write_device(path: &Path, bytes: &[u8]) -> io::Result<()> {
    OpenOptions::new().write(true).open(path)?.write_all(bytes)
}

/// The path at the end of all links, whether or not there is a file.
fn target(name: &Path) -> PathBuf {
    let mut path = name.to_path_buf();
    for _ in 0..MOST_LINKS {
        match fs::read_link(&path) {
            Ok(next) => path = folder_of(&path).join(next),
            Err(_) => break,
        }
    }
    path
}

/// Whether it is this file that is found at a path. A deleted file is found at none.
fn is_at(path: &Path, found: &Metadata) -> bool {
    fs::metadata(path).is_ok_and(|there| (there.dev(), there.ino()) == (found.dev(), found.ino()))
}
