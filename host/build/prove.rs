//! Has `rt` prove the crates and build the archives.

use std::io::{self, BufRead, BufReader};
use std::path::{Path, PathBuf};
use std::process::{Command, ExitStatus, Stdio};

use crate::progress::Progress;
use crate::stamp;

/// The script of the repository that has `rt` prove and build static libraries.
const SCRIPT: &str = "tools/staticlib";

/// Where it writes archives.
pub fn archive_folder(root: &Path) -> PathBuf {
    root.join("target").join("staticlib")
}

/// Builds the archives unless they are there and were built from the same sources by the same toolchain. The sources lie in `root`, which is the
/// repository's top folder or a copy.
pub fn archives(top: &Path, root: &Path, archives: &[&str], names: &[String], toolchain: &str) -> Result<(), String> {
    let folder = archive_folder(root);
    let sources = stamp::of_sources(root, names, toolchain);
    if archives.iter().all(|name| stamp::agrees(&folder, name, &sources)) {
        return Ok(());
    }
    let mut progress = Progress::new(names);
    progress.begin();
    for name in archives {
        staticlib(top, root, name, &mut progress)?;
    }
    // Sources that were changed meanwhile are built again next time.
    if stamp::of_sources(root, names, toolchain) == sources {
        archives.iter().for_each(|name| stamp::write(&folder, name, &sources));
    }
    Ok(())
}

fn staticlib(top: &Path, root: &Path, name: &str, progress: &mut Progress) -> Result<(), String> {
    let other_way = "Or set BALZENOH_LIB_DIR to a folder that holds libbalzenoh.a.";
    let script = top.join(SCRIPT);
    match run(&script, root, name, progress) {
        Ok(status) if status.success() => Ok(()),
        // What the shell answers where there is no such program.
        Ok(status) if status.code() == Some(127) => {
            Err(format!("`rt`, the Rattle toolchain, did not start. Put it on the path. {other_way}"))
        }
        Ok(status) => {
            let (script, root) = (script.display(), root.display());
            Err(format!("`{script} {name}` failed in {root} ({status}). Run it there by hand to see why. {other_way}"))
        }
        Err(error) => Err(format!("`{}` did not start ({error}). {other_way}", script.display())),
    }
}

/// What `rt` says is handed on to cargo, which shows it where the build fails.
fn run(script: &Path, root: &Path, name: &str, progress: &mut Progress) -> io::Result<ExitStatus> {
    let mut child = Command::new(script).arg(name).current_dir(root).stdout(Stdio::piped()).spawn()?;
    if let Some(said) = child.stdout.take() {
        for line in BufReader::new(said).split(b'\n').map_while(Result::ok) {
            let line = String::from_utf8_lossy(&line).into_owned();
            eprintln!("{line}");
            progress.line(&line);
        }
    }
    child.wait()
}
