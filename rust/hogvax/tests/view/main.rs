//! `libhogvax_view.a`: what is in it, that no routine in it can reach itself, its
//! stack, and the C example that links it alone. Of the whole library, the jumps of
//! a run.

#[path = "../shared/archives.rs"]
mod archives;
mod branches;
mod calls;
#[path = "../shared/compiler.rs"]
mod compiler;
mod cycles;
mod dispatch;
mod example;
mod faults;
mod objdump;
mod printed;
mod recursion;
mod stack;
mod symbols;

use std::fs;
use std::path::{Path, PathBuf};

use compiler::{compiler, succeed};
use objdump::{objects, Object};

const HEADER: &str = include_str!("../../../../include/hogvax.h");

/// A file for these tests.
fn made(name: &str) -> PathBuf {
    let folder = Path::new(env!("CARGO_TARGET_TMPDIR")).join("view");
    fs::create_dir_all(&folder).unwrap();
    folder.join(name)
}

/// A C file with this text.
fn source(name: &str, text: &str) -> PathBuf {
    let source = made(&format!("{name}.c"));
    fs::write(&source, text).unwrap();
    source
}

/// The program of a C file and an archive. The loader finds the C library's routines
/// at its start, and not at their first calls, on the stack of these.
fn linked(source: &Path, archive: &Path, name: &str) -> PathBuf {
    let program = made(name);
    let mut command = compiler("cc", "c99");
    command.args(["-pthread", "-Wl,-z,now"]);
    command.arg(source).arg(archive);
    succeed(command.arg("-o").arg(&program));
    program
}

/// The objects of an archive or of an object file.
fn disassembled(file: &Path) -> Vec<Object> {
    objects(file).unwrap_or_else(|fault| panic!("{fault}"))
}
