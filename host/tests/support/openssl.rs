//! AES-128 and AES-256 by the `openssl` program.

use std::io::Write;
use std::process::{Command, Stdio};

use balzenoh::hex;

/// Which way the cipher is run.
#[derive(Clone, Copy, PartialEq)]
pub enum Way {
    Encrypt,
    Decrypt,
}

/// The program's answer, or nothing where there is no such program. The blocks fit into a pipe.
pub fn openssl(way: Way, key: &[u8], blocks: &[u8]) -> Option<Vec<u8>> {
    let direction = if way == Way::Encrypt { "-e" } else { "-d" };
    let cipher = format!("-aes-{}-ecb", 8 * key.len());
    let mut child = Command::new("openssl")
        .args(["enc", &cipher, "-nopad", direction, "-K", &hex::encode(key)])
        .stdin(Stdio::piped())
        .stdout(Stdio::piped())
        .spawn()
        .ok()?;
    child.stdin.take().expect("a pipe").write_all(blocks).expect("openssl reads its input");
    let output = child.wait_with_output().expect("openssl ends");
    assert!(output.status.success(), "openssl failed");
    Some(output.stdout)
}
