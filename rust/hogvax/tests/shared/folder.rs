//! The folder of samples, and the command line at the root of the repository.

use std::fs;
use std::path::{Path, PathBuf};
use std::process::{Command, Output, Stdio};

/// A folder or file of the samples.
pub fn samples(name: &str) -> PathBuf {
    let root = Path::new(env!("CARGO_MANIFEST_DIR")).join("../..");
    root.join("samples").join(name)
}

pub fn bytes(name: &str) -> Vec<u8> {
    fs::read(samples(name)).unwrap_or_else(|error| panic!("{name}: {error}"))
}

/// The names of all files in a folder of the samples.
pub fn files(folder: &str) -> Vec<String> {
    let entries = fs::read_dir(samples(folder)).unwrap();
    let name = |entry: fs::DirEntry| entry.file_name().into_string().unwrap();
    let mut names: Vec<String> = entries.map(|entry| name(entry.unwrap())).collect();
    names.sort();
    names
}

/// Runs the command line with these words at the root of the repository.
pub fn hogvax_at_root(words: &[&str]) -> Output {
    let mut command = Command::new(env!("CARGO_BIN_EXE_hogvax"));
    command.current_dir(samples("..")).stdin(Stdio::null());
    command.args(words).output().unwrap()
}
