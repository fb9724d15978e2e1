//! The C header and the C examples, with the system's C compiler and the static
//! library.

mod answers;
#[path = "../shared/compiler.rs"]
mod compiler;
mod constants;
mod declarations;
mod example;
mod slots;
mod stack;

use std::fs;
use std::path::{Path, PathBuf};
use std::process::{Command, Output};

use compiler::{compiler, repository, succeed};

const HEADER: &str = include_str!("../../../../include/hogvax.h");

/// The records of Grow, for C.
const GROW: &str = "#include <stdint.h>
static const uint8_t grow[] = {
    1, 1, 8, 0, 0, 0, 0, 0, 1, 0, 8, 0, 0, 0, 0, 0, 7, 0, 0, 0, 0, 0, 0, 0, 5, 0, 0, 0, 0, 0, 0, 0,
    2, 0, 0, 0, 0, 0, 0, 0, 1, 0, 0, 0, 0, 0, 0, 0, 0, 0, 0, 0, 1, 0, 0, 0, 6, 0, 0, 0, 0, 0, 0, 0,
    8, 1, 0, 0, 0, 0, 0, 0, 8, 2, 0, 0, 0, 0, 0, 0};
";

/// A file for these tests.
fn made(name: &str) -> PathBuf {
    let folder = Path::new(env!("CARGO_TARGET_TMPDIR")).join("c");
    fs::create_dir_all(&folder).unwrap();
    folder.join(name)
}

/// Compiles and links a program of this source: the program.
fn build(source: &Path, name: &str) -> PathBuf {
    let program = made(name);
    let mut command = compiler("cc", "c99");
    // Some make threads.
    command.arg("-pthread");
    command.arg(source).arg(env!("HOGVAX_ARCHIVE"));
    succeed(command.arg("-o").arg(&program));
    program
}

/// As `build`, of a source with this text.
fn build_text(text: &str, name: &str) -> PathBuf {
    let source = made(&format!("{name}.c"));
    fs::write(&source, text).unwrap();
    build(&source, name)
}

/// As `build_text`, with `grow` in front.
fn build_with_grow(text: &str, name: &str) -> PathBuf {
    build_text(&format!("{GROW}{text}"), name)
}
