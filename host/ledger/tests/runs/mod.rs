//! The program run as a whole.

use std::io::Write;
use std::path::{Path, PathBuf};
use std::process::{Command, Stdio};

/// Runs it with these words and this standard input: its status, and what it wrote to its output
/// and to its errors.
pub fn run(words: &[&str], input: &[u8]) -> (Option<i32>, String, String) {
    let mut child = Command::new(env!("CARGO_BIN_EXE_ledger"))
        .args(words)
        .stdin(Stdio::piped())
        .stdout(Stdio::piped())
        .stderr(Stdio::piped())
        .spawn()
        .expect("it starts");
    // It may have ended, or read all that decides.
    let _ = child.stdin.take().expect("a pipe").write_all(input);
    let output = child.wait_with_output().expect("it ends");
    let text = |bytes: Vec<u8>| String::from_utf8(bytes).expect("text");
    let status = output.status.code();
    (status, text(output.stdout), text(output.stderr))
}

/// A status and an output, and no errors.
pub fn said(status: i32, output: &str) -> (Option<i32>, String, String) {
    (Some(status), String::from(output), String::new())
}

/// A file for one test, which is removed in the end.
pub struct File(pub PathBuf);

impl File {
    pub fn new(name: &str, content: &[u8]) -> File {
        let path = Path::new(env!("CARGO_TARGET_TMPDIR")).join(name);
        std::fs::write(&path, content).expect("written");
        File(path)
    }

    pub fn path(&self) -> &str {
        self.0.to_str().expect("a path in text")
    }
}

impl Drop for File {
    fn drop(&mut self) {
        let _ = std::fs::remove_file(&self.0);
    }
}

/// What it says with status 2 and nothing on its output.
pub fn fault(words: &[&str]) -> String {
    let (status, output, errors) = run(words, b"");
    assert_eq!((status, output.as_str()), (Some(2), ""), "{words:?}");
    let errors = errors.strip_prefix("ledger: ").expect("its name");
    String::from(errors.trim_end())
}
