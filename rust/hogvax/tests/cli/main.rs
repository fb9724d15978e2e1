//! The command line: what each verb prints, and its exit status.

mod assemble;
mod check;
mod draw;
mod every_run;
mod every_run_data;
mod explanations;
mod help;
mod listing;
mod mistaken;
mod newick;
mod pack_unpack;
mod perform;
mod printing;
mod program_runs;
mod progress;
mod run;
mod run_verbs;
mod show;
mod source;
mod stream;
mod sums;
#[cfg(target_os = "linux")]
mod terminal;
mod texts;
mod tokens;
mod tree;
mod usage;
mod why;

use std::fs::{self, File};
use std::io::{ErrorKind, Write};
use std::path::{Path, PathBuf};
use std::process::{Child, Command, Output, Stdio};

use reference::{lay_out, Expr, Function, Program};

/// Document 01: "Tree T: 02 01 05 00 00 00 01 07 00 00 00."
const T: [u8; 11] = [2, 1, 5, 0, 0, 0, 1, 7, 0, 0, 0];

/// The command line's own file.
const HOGVAX: &str = env!("CARGO_BIN_EXE_hogvax");

fn command(words: &[&str]) -> Command {
    let mut command = Command::new(HOGVAX);
    command.args(words).stdin(Stdio::null());
    command
}

fn run(words: &[&str]) -> Output {
    command(words).output().unwrap()
}

/// Starts with a pipe at each standard stream.
fn piped(words: &[&str]) -> Child {
    let mut command = command(words);
    command.stdin(Stdio::piped());
    command.stdout(Stdio::piped()).stderr(Stdio::piped());
    command.spawn().unwrap()
}

/// Runs with these bytes on standard input.
fn run_on(words: &[&str], input: &[u8]) -> Output {
    let mut child = piped(words);
    let written = child.stdin.take().unwrap().write_all(input);
    // A verb that does not read its input closes the pipe.
    assert!(written.is_ok() || written.unwrap_err().kind() == ErrorKind::BrokenPipe);
    child.wait_with_output().unwrap()
}

/// The exit status is this, the text is on standard output, and standard
/// error is empty.
fn assert_says(output: &Output, status: i32, text: &str) {
    assert_eq!(String::from_utf8_lossy(&output.stderr), "");
    assert_eq!(String::from_utf8_lossy(&output.stdout), text);
    assert_eq!(output.status.code(), Some(status));
}

/// The exit status is this, the data is on standard output, and the line on
/// standard error.
fn assert_gives(output: &Output, status: i32, data: &[u8], line: &str) {
    assert_eq!(String::from_utf8_lossy(&output.stderr), line);
    assert!(output.stdout == data, "not the data: {line}");
    assert_eq!(output.status.code(), Some(status));
}

/// The exit status is 0 and something is on standard output alone.
fn printed(output: Output) -> String {
    assert_eq!(output.status.code(), Some(0));
    assert_eq!(String::from_utf8_lossy(&output.stderr), "");
    let text = String::from_utf8(output.stdout).unwrap();
    assert!(text.ends_with('\n'));
    assert!(
        text.lines().all(|line| line.chars().count() <= 80),
        "{text}"
    );
    text
}

/// The exit status is 2 and one line of message is on standard error alone.
fn trouble(output: Output) -> String {
    assert_eq!(output.status.code(), Some(2));
    assert_eq!(String::from_utf8_lossy(&output.stdout), "");
    let message = String::from_utf8(output.stderr).unwrap();
    assert!(message.starts_with("hogvax: ") && message.ends_with('\n'));
    assert_eq!(message.lines().count(), 1, "{message}");
    message
}

/// These words, with these bytes on standard input, say that standard output
/// is closed. A process that another test starts at the same moment may hold
/// the pipe's other end for an instant, so that the write succeeds: then it is
/// tried again.
fn assert_closed_pipe_is_told(words: &[&str], input: &[u8]) {
    let closed = || {
        let mut child = piped(words);
        drop(child.stdout.take());
        child.stdin.take().unwrap().write_all(input).unwrap();
        child.wait_with_output().unwrap()
    };
    let mut outputs = (0..10).map(|_| closed());
    let output = outputs.find(|output| output.status.code() != Some(0));
    let message = trouble(output.expect("a write to the closed pipe fails"));
    assert!(message.contains("standard output"), "{message}");
}

/// These words say that standard output, the file of `--out` or standard
/// error is full.
#[cfg(target_os = "linux")]
fn assert_full_device_is_told(words: &[&str]) {
    let full = || File::options().write(true).open("/dev/full").unwrap();
    let message = trouble(command(words).stdout(full()).output().unwrap());
    assert!(message.contains("standard output"), "{message}");
    let message = trouble(run(&[words, &["--out", "/dev/full"]].concat()));
    assert!(message.contains("/dev/full"), "{message}");
    let output = command(words).stderr(full()).output().unwrap();
    assert_eq!(output.status.code(), Some(2));
}

/// Where a sample is.
fn sample(name: &str) -> String {
    let root = Path::new(env!("CARGO_MANIFEST_DIR")).join("../..");
    let path = root.join("samples").join(name);
    path.to_str().unwrap().to_owned()
}

/// The bytes of a sample.
fn bytes(name: &str) -> Vec<u8> {
    fs::read(sample(name)).unwrap()
}

/// The bytes with another one at this place.
fn with(bytes: &[u8], place: usize, byte: u8) -> Vec<u8> {
    let mut bytes = bytes.to_vec();
    bytes[place] = byte;
    bytes
}

/// The file of a program of one function.
fn file(tree_valued: bool, body: Expr) -> Vec<u8> {
    let program = Program::new(vec![Function {
        tree_valued,
        parameters: 0,
        body,
    }]);
    lay_out(&program.records())
}

/// A call of function 0.
fn call(tree: u8) -> Expr {
    Expr::call(tree, 0, vec![])
}

/// A tree of two leaves.
fn two_leaves(left: i32, right: i32) -> Vec<u8> {
    let (left, right) = (left.to_le_bytes(), right.to_le_bytes());
    [&[2, 1][..], &left, &[1], &right].concat()
}

/// A new and empty folder, for one test.
fn folder(name: &str) -> PathBuf {
    let path = Path::new(env!("CARGO_TARGET_TMPDIR")).join(name);
    let _ = fs::remove_dir_all(&path);
    fs::create_dir_all(&path).unwrap();
    path
}
