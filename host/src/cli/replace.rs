//! Files that appear whole or not at all, and what is done with an earlier one.

use std::fs::{self, File, Metadata, OpenOptions, Permissions};
use std::io::{self, Error, ErrorKind, Write};
use std::os::unix::fs::{fchown, MetadataExt, OpenOptionsExt, PermissionsExt};
use std::path::{Path, PathBuf};

use super::identity::folder_of;

/// The mode of a file for its owner alone.
pub const PRIVATE: u32 = 0o600;
/// The mode from which the umask takes away.
pub const USUAL: u32 = 0o666;

/// Writes a file beside its place, then renames it. An earlier file's mode is kept; a new file gets `mode`, less the umask.
pub fn replace(path: &Path, bytes: &[u8], mode: u32) -> io::Result<()> {
    let earlier = fs::metadata(path).ok();
    let (beside, file) = create_beside(path, if earlier.is_some() { PRIVATE } else { mode })?;
    let written = fill(&file, bytes, earlier.as_ref()).and_then(|()| fs::rename(&beside, path));
    written.inspect_err(|_| {
        // The failure itself is reported; a leftover beside the place is not taken for a list.
        let _ = fs::remove_file(&beside);
    })
}

fn fill(mut file: &File, bytes: &[u8], earlier: Option<&Metadata>) -> io::Result<()> {
    file.write_all(bytes)?;
    if let Some(earlier) = earlier {
        take_over(file, earlier)?;
    }
    file.sync_all()
}

/// Gives a new file the owner, group and mode of the earlier one. Where the group cannot be given, and the mode tells it from
/// others, only the owner gets anything: nobody reads the new file who could not read the earlier one.
fn take_over(file: &File, earlier: &Metadata) -> io::Result<()> {
    // Another owner can be given by root alone. The one who writes the file has it otherwise.
    let _ = fchown(file, Some(earlier.uid()), None);
    let same_group = file.metadata()?.gid() == earlier.gid() || fchown(file, None, Some(earlier.gid())).is_ok();
    let mode = earlier.mode() & 0o777;
    let (group, others) = (mode >> 3 & 7, mode & 7);
    let kept = if same_group || group == others { mode } else { mode & 0o700 };
    file.set_permissions(Permissions::from_mode(kept))
}

/// A new file in the same folder, under a name that nobody else has.
fn create_beside(path: &Path, mode: u32) -> io::Result<(PathBuf, File)> {
    // The name is short, so that the place's own may be as long as names are.
    require_name(path)?;
    let mut attempt = 0;
    loop {
        let beside = folder_of(path).join(format!(".balzenoh-{}-{attempt}.part", std::process::id()));
        match OpenOptions::new().write(true).create_new(true).mode(mode).open(&beside) {
            Err(error) if error.kind() == ErrorKind::AlreadyExists && attempt < 100 => attempt += 1,
            result => return result.map(|file| (beside, file)),
        }
    }
}

/// A path that ends in `..`, say, names no file that could be made.
fn require_name(path: &Path) -> io::Result<()> {
    path.file_name().map(|_| ()).ok_or(Error::from(ErrorKind::IsADirectory))
}

/// What became of an earlier file.
pub enum Cleared {
    Gone,
    /// It could not be removed, and is now empty.
    Emptied(Error),
    /// It could not be emptied either.
    StillThere(Error),
}

/// Leaves nothing of an earlier file.
pub fn clear(path: &Path) -> Cleared {
    let Err(error) = fs::remove_file(path) else { return Cleared::Gone };
    if nothing_there(path) {
        return Cleared::Gone;
    }
    match OpenOptions::new().write(true).truncate(true).open(path) {
        Ok(_) => Cleared::Emptied(error),
        Err(_) => Cleared::StillThere(error),
    }
}

/// Whether there is surely no file. A folder is none, and no answer was ever there.
fn nothing_there(path: &Path) -> bool {
    match fs::metadata(path) {
        Ok(found) => !found.is_file(),
        Err(error) => matches!(error.kind(), ErrorKind::NotFound | ErrorKind::NotADirectory | ErrorKind::InvalidFilename),
    }
}
