//! A repository with this package and a few crates with no contents, and a program in the place of `rt`.

use std::fs;
use std::os::unix::fs::PermissionsExt;
use std::path::{Path, PathBuf};
use std::process::{Command, Output};

pub const HOST: &str = env!("CARGO_MANIFEST_DIR");
/// Where this package has found the archives.
pub const ARCHIVES: &str = env!("BALZENOH_ARCHIVES");

const CRATES: &str = "blocks:\naes: blocks\ncalls: aes\nbalzenoh: calls aes\nbalzenoh_c staticlib: balzenoh\n\
    aes_blocks: aes blocks\naes_blocks_c staticlib: aes_blocks\nvector: balzenoh io\n";

/// Answers `rt version`, and for `rt lib` notes the call, says what `rt` says and copies the archive, or an empty one where it is
/// missing. Of one crate it says nothing, as of those that were proved before.
const RT: &str = r#"#!/bin/sh
[ "$1" = version ] && echo 'a kit for tests' && exit
echo "$1 in $PWD" >>"$RT_CALLS"
top=${PWD##*/}
for name in blocks aes calls "$top"; do
    echo "fn $name::one: proved"
    echo "library core: modules loaded=2 checked=0"
    echo "crate $name: modules loaded=3 checked=5"
    echo 'axioms libc: none reached of the 128 declared'
    echo 'logic=proved functions=1 incremental=trusted'
done
mkdir -p out
cat "$ARCHIVES/lib${top%_c}.a" >"out/lib$top.a" 2>/dev/null || true
"#;

/// It goes away with the value.
pub struct Checkout {
    folder: PathBuf,
}

impl Checkout {
    pub fn new(name: &str) -> Self {
        let folder = Path::new(env!("CARGO_TARGET_TMPDIR")).join(format!("{name}-{}", std::process::id()));
        let checkout = Self { folder };
        fs::create_dir_all(checkout.path("bin")).expect("a folder for the test");
        copy_folder(Path::new(HOST), &checkout.path("top/host"));
        copy_folder(&Path::new(HOST).join("../tools"), &checkout.path("top/tools"));
        checkout.write("top/crates.txt", CRATES);
        for name in ["blocks", "aes", "calls", "balzenoh", "balzenoh_c", "aes_blocks", "aes_blocks_c", "vector"] {
            checkout.write(&format!("top/crates/{name}/src/lib.rt"), name);
        }
        checkout.write("bin/rt", RT);
        fs::set_permissions(checkout.path("bin/rt"), fs::Permissions::from_mode(0o755)).expect("a program");
        checkout
    }

    pub fn path(&self, name: &str) -> PathBuf {
        self.folder.join(name)
    }

    pub fn write(&self, name: &str, text: &str) {
        let path = self.path(name);
        fs::create_dir_all(path.parent().expect("a folder")).expect("a folder for the test");
        fs::write(path, text).expect("a file for the test");
    }

    /// The calls of `rt lib` so far.
    pub fn calls(&self) -> Vec<String> {
        let calls = fs::read_to_string(self.path("calls")).unwrap_or_default();
        calls.lines().map(str::to_string).collect()
    }

    /// Runs a program in the package's folder, with the program in the place of `rt` on the path.
    pub fn run(&self, program: &str, arguments: &[&str]) -> Output {
        let path = format!("{}:{}", self.path("bin").display(), std::env::var("PATH").unwrap_or_default());
        Command::new(program)
            .args(arguments)
            .current_dir(self.path("top/host"))
            .env("PATH", path)
            .env("ARCHIVES", ARCHIVES)
            .env("RT_CALLS", self.path("calls"))
            .env("CARGO_TARGET_DIR", self.path("built"))
            .env_remove("BALZENOH_LIB_DIR")
            .output()
            .expect("the program starts")
    }

    /// Runs cargo, which must succeed, and gives what it said.
    pub fn cargo(&self, arguments: &[&str]) -> String {
        told(&self.run(env!("CARGO"), arguments))
    }
}

impl Drop for Checkout {
    fn drop(&mut self) {
        // What stays behind lies in the build's folder.
        let _ = fs::remove_dir_all(&self.folder);
    }
}

/// Whether a program can be started here; where it cannot, that is said.
pub fn present(program: &str) -> bool {
    let present = Command::new(program).arg("--version").output().is_ok();
    if !present {
        println!("no {program} program here: skipped");
    }
    present
}

/// What a program that must succeed has said.
pub fn told(output: &Output) -> String {
    let told = [&output.stdout[..], &output.stderr].concat();
    let told = String::from_utf8_lossy(&told).into_owned();
    assert!(output.status.success(), "{told}");
    told
}

/// Copies a folder without what was built in it.
fn copy_folder(from: &Path, to: &Path) {
    fs::create_dir_all(to).expect("a folder for the test");
    for entry in fs::read_dir(from).expect("a folder").map(|entry| entry.expect("an entry")) {
        let (from, to) = (entry.path(), to.join(entry.file_name()));
        match entry.file_name().to_str() {
            Some("target") => {}
            _ if from.is_dir() => copy_folder(&from, &to),
            _ => drop(fs::copy(from, to).expect("a file")),
        }
    }
}
