//! A stamp beside each archive: what it was built from and by, and which archive it was.

use std::collections::hash_map::DefaultHasher;
use std::fs;
use std::hash::{Hash, Hasher};
use std::io;
use std::path::{Path, PathBuf};

use crate::crates;

/// A number over the toolchain's identity, the list of crates, and the files of these crates; nothing where one cannot be read.
pub fn of_sources(root: &Path, names: &[String], toolchain: &str) -> Option<u64> {
    let mut hasher = DefaultHasher::new();
    toolchain.hash(&mut hasher);
    fs::read(root.join(crates::LIST)).ok()?.hash(&mut hasher);
    for name in names {
        hash_all(&crates::sources(&crates::folder(root, name)).ok()?, &mut hasher).ok()?;
    }
    Some(hasher.finish())
}

/// Whether the archive is the one that was built from these sources.
pub fn agrees(folder: &Path, name: &str, sources: &Option<u64>) -> bool {
    let expected = text(folder, name, sources);
    expected.is_some() && fs::read_to_string(path(folder, name)).ok() == expected
}

/// Where it cannot be written the archive is built again next time.
pub fn write(folder: &Path, name: &str, sources: &Option<u64>) {
    if let Some(text) = text(folder, name, sources) {
        let _ = fs::write(path(folder, name), text);
    }
}

fn path(folder: &Path, name: &str) -> PathBuf {
    folder.join(format!("lib{name}.stamp"))
}

fn text(folder: &Path, name: &str, sources: &Option<u64>) -> Option<String> {
    let mut hasher = DefaultHasher::new();
    fs::read(folder.join(format!("lib{name}.a"))).ok()?.hash(&mut hasher);
    Some(format!("sources {:016X}, archive {:016X}\n", (*sources)?, hasher.finish()))
}

/// Names and contents, in the order of the names.
fn hash_folder(folder: &Path, hasher: &mut DefaultHasher) -> io::Result<()> {
    let mut paths = fs::read_dir(folder)?.map(|entry| Ok(entry?.path())).collect::<io::Result<Vec<_>>>()?;
    paths.sort();
    hash_all(&paths, hasher)
}

fn hash_all(paths: &[PathBuf], hasher: &mut DefaultHasher) -> io::Result<()> {
    paths.len().hash(hasher);
    for path in paths {
        path.file_name().hash(hasher);
        if path.is_dir() {
            hash_folder(path, hasher)?;
        } else {
            fs::read(path)?.hash(hasher);
        }
    }
    Ok(())
}
