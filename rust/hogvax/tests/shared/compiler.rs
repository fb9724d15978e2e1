//! The system's compilers of C and C++, as the tests call them.

use std::path::{Path, PathBuf};
use std::process::{Command, Output, Stdio};

/// What a test says that can't start a program.
const NEEDED: &str = "the tests need compilers of C and C++, `cc` and `c++`";

/// Warnings are errors.
const STRICT: [&str; 4] = ["-Wall", "-Wextra", "-Werror", "-pedantic"];

/// A file or folder of the repository.
pub fn repository(name: &str) -> PathBuf {
    let root = Path::new(env!("CARGO_MANIFEST_DIR")).join("../..");
    root.join(name)
}

/// The compiler, with warnings as errors and the header in reach.
pub fn compiler(name: &str, standard: &str) -> Command {
    let mut command = Command::new(name);
    command.args(STRICT).arg(format!("-std={standard}"));
    command.arg("-I").arg(repository("include"));
    command.stdin(Stdio::null());
    command
}

pub fn succeed(command: &mut Command) -> Output {
    let output = command.output();
    let output = output.unwrap_or_else(|error| panic!("{command:?}: {error}; {NEEDED}"));
    let said = String::from_utf8_lossy(&output.stderr);
    assert!(output.status.success(), "{command:?}: {said}");
    output
}
