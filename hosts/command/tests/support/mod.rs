//! Runs of the command.
#![allow(dead_code)]

use std::io::Write;
use std::path::{Path, PathBuf};
use std::process::{Command, Output, Stdio};

pub fn mpeg1(arguments: &[&str]) -> Command {
    let mut command = Command::new(env!("CARGO_BIN_EXE_mpeg1"));
    command.args(arguments).stdin(Stdio::null());
    command
}

pub fn run(arguments: &[&str]) -> Output {
    mpeg1(arguments).output().unwrap()
}

/// A run with bytes on standard input, which it may leave unread.
pub fn run_on(arguments: &[&str], input: &[u8]) -> Output {
    let mut child = mpeg1(arguments).stdin(Stdio::piped()).stdout(Stdio::piped()).stderr(Stdio::piped()).spawn().unwrap();
    let mut stdin = child.stdin.take().unwrap();
    std::thread::scope(|scope| {
        scope.spawn(move || {
            let _ = stdin.write_all(input);
        });
        child.wait_with_output().unwrap()
    })
}

/// Its exit status, and what it wrote to standard error.
pub fn ended(output: &Output) -> (i32, String) {
    (output.status.code().expect("no signal ends the command"), String::from_utf8(output.stderr.clone()).unwrap())
}

pub fn stream(name: &str) -> String {
    format!("{}/../../tests/streams/{name}", env!("CARGO_MANIFEST_DIR"))
}

/// A new empty folder.
pub fn folder(name: &str) -> PathBuf {
    let path = Path::new(env!("CARGO_TARGET_TMPDIR")).join(name);
    let _ = std::fs::remove_dir_all(&path);
    std::fs::create_dir_all(&path).unwrap();
    path
}

pub fn text(path: &Path) -> &str {
    path.to_str().unwrap()
}
