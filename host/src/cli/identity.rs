//! Which file it is, by whatever name or stream it is reached.

use std::ffi::OsString;
use std::fs::{self, File, Metadata};
use std::os::fd::AsFd;
use std::os::unix::fs::MetadataExt;
use std::path::{Path, PathBuf};

/// A device and a number on it; for a file that is not there yet, those of its folder and the file's name.
#[derive(PartialEq)]
pub struct Identity {
    device: u64,
    number: u64,
    new: Option<OsString>,
}

impl Identity {
    /// The regular file at a path, links followed. Nothing else can be lost by writing.
    pub fn of_file(path: &Path) -> Option<Self> {
        fs::metadata(path).ok().filter(Metadata::is_file).map(|found| Self::existing(&found))
    }

    /// The regular file that a stream reads or writes.
    pub fn of_stream(stream: impl AsFd) -> Option<Self> {
        let copy = File::from(stream.as_fd().try_clone_to_owned().ok()?);
        copy.metadata().ok().filter(Metadata::is_file).map(|found| Self::existing(&found))
    }

    /// The regular file at a path, or the one that would be made there.
    pub fn of_place(path: &Path) -> Option<Self> {
        Self::of_file(path).or_else(|| {
            let folder = fs::metadata(folder_of(path)).ok()?;
            Some(Self { new: Some(path.file_name()?.to_owned()), ..Self::existing(&folder) })
        })
    }

    fn existing(found: &Metadata) -> Self {
        Self { device: found.dev(), number: found.ino(), new: None }
    }
}

/// The folder that a path's last name stands in.
pub fn folder_of(path: &Path) -> PathBuf {
    let folder = path.parent().filter(|folder| !folder.as_os_str().is_empty());
    folder.unwrap_or(Path::new(".")).to_path_buf()
}
