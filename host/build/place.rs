//! Where `rt` builds: in the repository, or in a copy of the sources where that cannot be written.

use std::fs::{self, File};
use std::io;
use std::path::{Path, PathBuf};
use std::process;

use crate::crates;

/// The repository's top folder, or a copy of the sources in cargo's own folder. Archives are written to `target` below it.
pub fn building_folder(top: &Path, out: &Path, names: &[String]) -> io::Result<PathBuf> {
    if can_be_written(&top.join("target")) {
        return Ok(top.to_path_buf());
    }
    let copy = out.join("sources");
    copy_sources(top, &copy, names)?;
    Ok(copy)
}

/// Whether files can be made in the folder, which is made where it is missing.
pub fn can_be_written(folder: &Path) -> bool {
    let probe = folder.join(format!(".probe-{}", process::id()));
    let written = fs::create_dir_all(folder).is_ok() && File::create(&probe).is_ok();
    // What cannot be removed is an empty file in a build folder.
    let _ = fs::remove_file(&probe);
    written
}

/// Copies these crates and their lines of the list. What `rt` has kept of them in the copy stays.
fn copy_sources(top: &Path, copy: &Path, names: &[String]) -> io::Result<()> {
    for name in names {
        let (from, to) = (crates::folder(top, name), crates::folder(copy, name));
        fs::create_dir_all(&to)?;
        crates::sources(&to)?.iter().try_for_each(|old| remove(old))?;
        crates::sources(&from)?.iter().try_for_each(|source| copy_into(source, &to))?;
    }
    let list = fs::read_to_string(top.join(crates::LIST))?;
    fs::write(copy.join(crates::LIST), crates::lines_of(&list, names))
}

fn remove(path: &Path) -> io::Result<()> {
    if path.is_dir() {
        fs::remove_dir_all(path)
    } else {
        fs::remove_file(path)
    }
}

/// Copies contents and not modes: the copies can be written and removed.
fn copy_into(from: &Path, folder: &Path) -> io::Result<()> {
    let to = folder.join(from.file_name().unwrap_or_default());
    if !from.is_dir() {
        return fs::write(to, fs::read(from)?);
    }
    fs::create_dir(&to)?;
    fs::read_dir(from)?.try_for_each(|entry| copy_into(&entry?.path(), &to))
}
