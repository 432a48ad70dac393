//! What several tests have in common.
use std::io::Write;
use std::path::{Path, PathBuf};
use std::process::{Command, Stdio};

pub fn root() -> PathBuf {
    Path::new(env!("CARGO_MANIFEST_DIR")).join("..")
}

/// What a program of bin/ makes of bytes.
pub fn through(program: &str, bytes: &[u8]) -> Vec<u8> {
    let mut python = Command::new("python3");
    let python = python.arg(root().join("bin").join(program)).stdin(Stdio::piped()).stdout(Stdio::piped());
    let mut child = python.spawn().expect("python3 runs");
    // both read all before they write
    child.stdin.take().expect("a pipe").write_all(bytes).expect("the bytes are read");
    let made = child.wait_with_output().expect("it ends");
    assert!(made.status.success(), "bin/{program} fails");
    made.stdout
}
