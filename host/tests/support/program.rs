//! Runs the program in a folder of its own.

use std::ffi::OsStr;
use std::fs::{self, Permissions};
use std::io::Write;
use std::os::unix::fs::{MetadataExt, PermissionsExt};
use std::os::unix::process::CommandExt;
use std::path::{Path, PathBuf};
use std::process::{Command, Stdio};

const PROGRAM: &str = env!("CARGO_BIN_EXE_balzenoh");
/// A user who may write nothing of others, where the tests run as root.
const NOBODY: u32 = 65534;

/// A folder for one test; it goes away with the value.
pub struct Folder(PathBuf);

/// What the program left.
pub struct Run {
    pub status: Option<i32>,
    pub stdout: Vec<u8>,
    pub stderr: String,
}

impl Folder {
    pub fn new(name: &str) -> Self {
        let path = PathBuf::from(env!("CARGO_TARGET_TMPDIR")).join(format!("{name}-{}", std::process::id()));
        fs::create_dir_all(&path).expect("a folder for the test");
        Self(path)
    }

    pub fn write(&self, name: &str, bytes: &[u8]) {
        fs::write(self.0.join(name), bytes).expect("a file for the test");
    }

    pub fn read(&self, name: &str) -> Option<Vec<u8>> {
        fs::read(self.0.join(name)).ok()
    }

    /// The names of all files, hidden ones too, in order.
    pub fn names(&self) -> Vec<String> {
        let entries = fs::read_dir(&self.0).expect("the folder");
        let mut names: Vec<_> = entries.map(|entry| entry.expect("a file").file_name().into_string().expect("text")).collect();
        names.sort();
        names
    }

    pub fn path(&self) -> &Path {
        &self.0
    }

    /// The permission bits of a file, links followed.
    pub fn mode(&self, name: &str) -> u32 {
        fs::metadata(self.0.join(name)).expect("a file").mode() & 0o7777
    }

    pub fn set_mode(&self, name: &str, mode: u32) {
        fs::set_permissions(self.0.join(name), Permissions::from_mode(mode)).expect("the mode is set");
    }

    pub fn run<A: AsRef<OsStr>>(&self, arguments: &[A]) -> Run {
        self.feed(arguments, b"")
    }

    /// The commands that the help lists.
    pub fn commands(&self) -> Vec<String> {
        let help = self.run(&["--help"]).exits(0).text();
        let listed = help.lines().skip_while(|line| !line.starts_with("  seal ")).take_while(|line| !line.is_empty());
        listed.filter_map(|line| line.split_whitespace().next().map(str::to_string)).collect()
    }

    /// Runs the program with this standard input.
    pub fn feed<A: AsRef<OsStr>>(&self, arguments: &[A], input: &[u8]) -> Run {
        self.finish(Command::new(PROGRAM).args(arguments), input)
    }

    /// Runs a line of shell, in which `$B` is the program, `$K` a key and `$I` an IV.
    pub fn shell(&self, line: &str) -> Run {
        let values = [("B", PROGRAM), ("K", crate::KEY), ("I", crate::IV)];
        self.finish(Command::new("bash").arg("-c").arg(line).envs(values), b"")
    }

    /// Runs a line of shell with a terminal as its standard streams, where there is a program for that. What the terminal is told is
    /// on standard output.
    pub fn on_a_terminal(&self, line: &str) -> Option<Run> {
        if Command::new("script").arg("--version").output().is_err() {
            eprintln!("left out: there is no program `script`");
            return None;
        }
        Some(self.shell(&format!("script -qec '{line}' typescript < /dev/null")))
    }

    /// Runs the program, and gives the most memory that it held at a time, in bytes.
    pub fn peak_memory(&self, arguments: &[&str]) -> usize {
        let mut child =
            Command::new(PROGRAM).args(arguments).current_dir(&self.0).stdout(Stdio::null()).spawn().expect("the program starts");
        let (status, mut peak) = (format!("/proc/{}/status", child.id()), 0);
        loop {
            let held = fs::read_to_string(&status).unwrap_or_default();
            let line = held.lines().find_map(|line| line.strip_prefix("VmHWM:")).unwrap_or_default();
            peak = peak.max(line.trim().trim_end_matches(" kB").parse().unwrap_or(0));
            if let Some(status) = child.try_wait().expect("the program ends") {
                assert!(status.success(), "{arguments:?}");
                return 1_024 * peak;
            }
        }
    }

    /// Runs the program as a user to whom the modes of files apply, where such a one can run it.
    pub fn run_unprivileged(&self, arguments: &[&str]) -> Option<Run> {
        if self.unprivileged().arg("--version").stdout(Stdio::null()).status().is_err() {
            eprintln!("left out: nobody but root can run {PROGRAM}");
            return None;
        }
        Some(self.finish(self.unprivileged().args(arguments), b""))
    }

    fn unprivileged(&self) -> Command {
        let mut command = Command::new(PROGRAM);
        command.current_dir(&self.0);
        if fs::metadata("/proc/self").is_ok_and(|own| own.uid() == 0) {
            command.uid(NOBODY).gid(NOBODY);
        }
        command
    }

    fn finish(&self, command: &mut Command, input: &[u8]) -> Run {
        command.current_dir(&self.0).stdin(Stdio::piped()).stdout(Stdio::piped()).stderr(Stdio::piped());
        let mut child = command.spawn().expect("the program starts");
        // A program that needs no input may have ended by now.
        let _ = child.stdin.take().expect("a pipe").write_all(input);
        let output = child.wait_with_output().expect("the program ends");
        let stderr = String::from_utf8_lossy(&output.stderr).into_owned();
        Run { status: output.status.code(), stdout: output.stdout, stderr }
    }
}

impl Drop for Folder {
    fn drop(&mut self) {
        // What stays behind lies in the build's folder.
        let _ = fs::remove_dir_all(&self.0);
    }
}

impl Run {
    pub fn exits(self, status: i32) -> Self {
        assert_eq!(self.status, Some(status), "{}", self.stderr);
        self
    }

    pub fn prints(&self, expected: &[u8]) {
        assert!(self.stdout == expected, "printed {:?}", String::from_utf8_lossy(&self.stdout));
    }

    /// Holds that the messages have this text.
    pub fn tells(self, text: &str) -> Self {
        assert!(self.stderr.contains(text), "{text:?} is not in {:?}", self.stderr);
        self
    }

    /// Standard output as text.
    pub fn text(&self) -> String {
        String::from_utf8(self.stdout.clone()).expect("text")
    }
}

/// The bytes of hexadecimal digits.
pub fn digits(text: &str) -> Vec<u8> {
    balzenoh::hex::decode(text).expect("digits")
}
