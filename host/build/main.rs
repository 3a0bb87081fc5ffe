//! Finds the proved static library, or has it built, and links it.
//!
//! The archives come from the folder in BALZENOH_LIB_DIR where that is set. Otherwise `rt` proves and builds them, which takes some
//! minutes the first time, and is left out as long as nothing has changed.

mod crates;
mod identity;
mod place;
mod progress;
mod prove;
mod stamp;

use std::env;
use std::path::{self, Path, PathBuf};
use std::process::exit;

/// The product's library.
const PRODUCT: &str = "balzenoh";
/// The bare cipher, for the tests and the benchmark only.
const BARE_CIPHER: &str = "aes_blocks";
const LIB_DIR: &str = "BALZENOH_LIB_DIR";

fn main() {
    println!("cargo:rerun-if-changed=build");
    println!("cargo:rerun-if-env-changed={LIB_DIR}");
    require_target();
    let (folder, identity) = match env::var_os(LIB_DIR) {
        Some(folder) => (ready_archives(Path::new(&folder)), identity::GIVEN.to_string()),
        None => built_archives(),
    };
    println!("cargo:rustc-env=BALZENOH_PROVED={identity}");
    // Where the tests find the archives.
    println!("cargo:rustc-env=BALZENOH_ARCHIVES={}", folder.display());
    println!("cargo:rustc-link-search=native={}", folder.display());
    println!("cargo:rustc-link-lib=static={PRODUCT}");
    link_bare_cipher(&archive(&folder, BARE_CIPHER));
}

/// The archives hold machine code for x86-64 Linux.
fn require_target() {
    let arch = env::var("CARGO_CFG_TARGET_ARCH").unwrap_or_default();
    let system = env::var("CARGO_CFG_TARGET_OS").unwrap_or_default();
    if arch != "x86_64" || system != "linux" {
        stop(&format!("the proved library is for x86-64 Linux, and the target is {arch} {system}. Build for x86-64 Linux."));
    }
}

/// The archives in a folder that was named, which are watched for changes. The product's is enough.
fn ready_archives(folder: &Path) -> PathBuf {
    let folder = path::absolute(folder).unwrap_or_else(|_| folder.to_path_buf());
    let product = archive(&folder, PRODUCT);
    if !product.is_file() {
        stop(&format!("{LIB_DIR} is set, and there is no {}. Put it there, or unset {LIB_DIR}.", product.display()));
    }
    for archive in [product, archive(&folder, BARE_CIPHER)].iter().filter(|archive| archive.is_file()) {
        println!("cargo:rerun-if-changed={}", archive.display());
    }
    folder
}

/// Has `rt` build both archives. What they are built from is watched, not the archives, which are newer than this run's start.
fn built_archives() -> (PathBuf, String) {
    let host = PathBuf::from(env::var_os("CARGO_MANIFEST_DIR").expect("cargo names the package's folder"));
    let out = PathBuf::from(env::var_os("OUT_DIR").expect("cargo names a folder for the build"));
    let top = host.parent().expect("the package lies in the repository");
    let libraries = [PRODUCT, BARE_CIPHER].map(crates::static_library);
    let names = crates::needed(top, &libraries).unwrap_or_else(|why| stop(&why));
    println!("cargo:rerun-if-changed={}", top.join(crates::LIST).display());
    for name in &names {
        let folder = crates::folder(top, name);
        let sources = crates::sources(&folder).unwrap_or_else(|error| stop(&format!("{}: {error}.", folder.display())));
        for path in sources {
            println!("cargo:rerun-if-changed={}", path.display());
        }
    }
    let root = place::building_folder(top, &out, &names)
        .unwrap_or_else(|error| stop(&format!("the sources cannot be copied to {}: {error}.", out.display())));
    let toolchain = identity::toolchain();
    prove::archives(top, &root, &[PRODUCT, BARE_CIPHER], &names, &toolchain).unwrap_or_else(|why| stop(&why));
    (prove::archive_folder(&root), identity::built(top, &toolchain))
}

/// Links the bare cipher to the tests alone, so that the product cannot contain it. Without it they leave its tests out.
fn link_bare_cipher(archive: &Path) {
    println!("cargo:rustc-check-cfg=cfg(bare_cipher)");
    if archive.is_file() {
        println!("cargo:rustc-cfg=bare_cipher");
        println!("cargo:rustc-link-arg-tests={}", archive.display());
    }
}

fn archive(folder: &Path, name: &str) -> PathBuf {
    folder.join(format!("lib{name}.a"))
}

/// Ends the build with what is missing and what to do.
fn stop(what: &str) -> ! {
    eprintln!("balzenoh: {what}");
    exit(1);
}
