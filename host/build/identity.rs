//! What was proved, and by what, in one line: the commit of the sources and the toolchain's identity.

use std::env;
use std::ffi::OsStr;
use std::path::Path;
use std::process::Command;

/// Of an archive that was not built here nothing is known.
pub const GIVEN: &str = "commit unknown, toolchain unknown (the archive was given)";

/// The line for an archive that was built from the sources in this folder.
pub fn built(top: &Path, toolchain: &str) -> String {
    format!("commit {}, toolchain {toolchain}", commit(top).unwrap_or("unknown".into()))
}

/// What `rt version` prints. The program is watched.
pub fn toolchain() -> String {
    let folders = env::var_os("PATH").unwrap_or_default();
    let found = env::split_paths(&folders).map(|folder| folder.join("rt")).find(|path| path.is_file());
    if let Some(path) = found.and_then(|path| path.canonicalize().ok()) {
        println!("cargo:rerun-if-changed={}", path.display());
    }
    said(Command::new("rt").arg("version")).unwrap_or("unknown".into())
}

/// The commit, with `-changed` where the sources are not as they were committed. A folder inside another repository has none.
fn commit(top: &Path) -> Option<String> {
    if !said(&mut git(top, ["rev-parse", "--show-prefix"]))?.is_empty() {
        return None;
    }
    watch_commits(top);
    let commit = said(&mut git(top, ["rev-parse", "--short", "HEAD"]))?;
    let status = said(&mut git(top, ["status", "--porcelain", "--", "crates", "crates.txt"]))?;
    Some(if status.is_empty() { commit } else { commit + "-changed" })
}

/// Has cargo run this again after a commit or a checkout. A file that is missing would have it run every time.
fn watch_commits(top: &Path) {
    let log = said(&mut git(top, ["rev-parse", "--git-path", "logs/HEAD"])).map(|path| top.join(path));
    if let Some(log) = log.filter(|log| log.is_file()) {
        println!("cargo:rerun-if-changed={}", log.display());
    }
}

fn git<const N: usize>(top: &Path, arguments: [&str; N]) -> Command {
    let mut command = Command::new("git");
    command.arg(OsStr::new("-C")).arg(top).args(arguments);
    command
}

/// The first line that a command prints, or nothing where it does not start or fails.
fn said(command: &mut Command) -> Option<String> {
    let output = command.output().ok().filter(|output| output.status.success())?;
    let text = String::from_utf8(output.stdout).ok()?;
    Some(text.lines().next().unwrap_or_default().trim().to_string())
}
