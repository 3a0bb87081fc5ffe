//! `--version`.

use super::failure::Failure;
use super::standard;

/// The commit of the proved library's sources and the toolchain's identity, where the build knew them.
const PROVED: Option<&str> = option_env!("BALZENOH_PROVED");

pub fn version() -> Result<(), Failure> {
    let proved = PROVED.unwrap_or("unknown sources and toolchain");
    standard::print(&format!("balzenoh {}\nproved library: {proved}\n", env!("CARGO_PKG_VERSION")))
}
