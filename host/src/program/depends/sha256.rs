//! The SHA-256 of a job file, by the system's `sha256sum`.

use std::io::Write;
use std::process::{Command, Stdio};

const DIGITS: usize = 64;

/// `None` where the system has no `sha256sum`, or one that fails.
pub fn sha256(job: &[u8]) -> Option<String> {
    let mut sum = Command::new("sha256sum")
        .stdin(Stdio::piped())
        .stdout(Stdio::piped())
        .stderr(Stdio::null())
        .spawn()
        .ok()?;
    // It reads all before it writes, so neither waits for the other.
    let sent = sum.stdin.take()?.write_all(job);
    let output = sum.wait_with_output().ok()?;
    let hash = String::from_utf8(output.stdout.get(..DIGITS)?.to_vec()).ok()?;
    let is_hash = hash.bytes().all(|digit| digit.is_ascii_hexdigit());
    (sent.is_ok() && output.status.success() && is_hash).then_some(hash)
}
