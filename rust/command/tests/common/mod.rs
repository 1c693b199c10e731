//! What the tests of the whole program share. Not every file of tests uses all of it.
#![allow(dead_code)]

use std::io::Write;
use std::path::{Path, PathBuf};
use std::process::{Command, Output, Stdio};

/// The program.
pub fn cogthunder() -> Command {
    let mut command = Command::new(env!("CARGO_BIN_EXE_cogthunder"));
    command.stdin(Stdio::null());
    command
}

/// A folder of this test's own, made anew.
pub fn folder(name: &str) -> PathBuf {
    let folder = Path::new(env!("CARGO_TARGET_TMPDIR")).join(name);
    let _ = std::fs::remove_dir_all(&folder);
    std::fs::create_dir_all(&folder).expect("the folder can be made");
    folder
}

/// What a command printed, and its exit status.
pub fn printed(output: &Output) -> (String, String, i32) {
    let text = |bytes: &[u8]| String::from_utf8(bytes.to_vec()).expect("the program prints UTF-8");
    (text(&output.stdout), text(&output.stderr), output.status.code().expect("no signal ended it"))
}

/// Runs the program to its end.
pub fn run(words: &[&str]) -> (String, String, i32) {
    printed(&cogthunder().args(words).output().expect("the program runs"))
}

/// The same with something on standard input.
pub fn fed(words: &[&str], input: &[u8]) -> (String, String, i32) {
    let mut command = cogthunder();
    command.args(words).stdin(Stdio::piped()).stdout(Stdio::piped()).stderr(Stdio::piped());
    let mut child = command.spawn().expect("the program runs");
    child.stdin.take().unwrap().write_all(input).expect("the program reads");
    printed(&child.wait_with_output().expect("the program ends"))
}

/// A file of the repository.
pub fn repository(path: &str) -> String {
    Path::new(env!("CARGO_MANIFEST_DIR")).join("../..").join(path).to_str().expect("a path in UTF-8").to_string()
}

/// A litmus file of the repository.
pub fn sample(name: &str) -> String {
    repository(&format!("samples/litmus/{name}.litmus"))
}
