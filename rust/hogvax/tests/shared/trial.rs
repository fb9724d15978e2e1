//! A page tried out: its files written and its commands run, in order, in a
//! folder of their own.

use std::fs;
use std::path::{Path, PathBuf};
use std::process::{Command, Stdio};

use crate::archives;
use crate::compiler::repository;
use crate::page::{Act, Page};

/// The text of a page of the repository.
pub fn text(name: &str) -> String {
    let text = fs::read_to_string(repository(name));
    text.unwrap_or_else(|error| panic!("{name}: {error}"))
}

/// A page of the repository.
pub fn read(name: &str) -> Page {
    Page::new(&text(name))
}

/// Every command of this page prints what the page says. A page without
/// commands says nothing that can be tried.
pub fn assert_true(name: &str) {
    let page = read(name);
    assert!(page.commands().count() > 0, "{name} has no commands");
    let differences = differences(&page, &folder(&name.replace('/', "-")));
    let none = differences.is_empty();
    assert!(none, "{name}:\n{}", differences.join("\n"));
}

/// What a page's commands print otherwise than it says, in this folder.
pub fn differences(page: &Page, folder: &Path) -> Vec<String> {
    let mut differences = Vec::new();
    for step in &page.steps {
        match &step.act {
            Act::File { name, text } => fs::write(folder.join(name), text).unwrap(),
            Act::Command { command, printed } => {
                let really = run(command, folder);
                if really != *printed {
                    let line = step.line;
                    differences.push(format!(
                        "line {line}: {command}\nthe page says:\n{printed}and it prints:\n{really}"
                    ));
                }
            }
        }
    }
    differences
}

/// What a command prints in this folder, on standard output and then on
/// standard error.
fn run(command: &str, folder: &Path) -> String {
    let mut shell = Command::new("sh");
    shell.arg("-c").arg(command).current_dir(folder);
    // The width of drawings would follow it.
    shell.stdin(Stdio::null()).env_remove("COLUMNS");
    let output = shell.output().unwrap();
    let bytes = [output.stdout, output.stderr].concat();
    String::from_utf8_lossy(&bytes).into_owned()
}

/// Puts a file that is only read or run under another name, too. A link by name
/// it may not be: `rt ci` refuses one anywhere below the root.
fn named(from: &Path, to: &Path) {
    let made = fs::hard_link(from, to);
    made.or_else(|_| fs::copy(from, to).map(|_| ())).unwrap();
}

/// Copies a file, or a folder with all in it.
fn copy(from: &Path, to: &Path) {
    if !from.is_dir() {
        fs::copy(from, to).unwrap();
        return;
    }
    fs::create_dir(to).unwrap();
    for entry in fs::read_dir(from).unwrap() {
        let entry = entry.unwrap();
        copy(&entry.path(), &to.join(entry.file_name()));
    }
}

/// A new folder that looks like the repository's root: the command line is
/// `./hogvax` there, and samples, header, examples and libraries are in place.
pub fn folder(name: &str) -> PathBuf {
    let path = Path::new(env!("CARGO_TARGET_TMPDIR")).join("pages");
    let path = path.join(name);
    let _ = fs::remove_dir_all(&path);
    fs::create_dir_all(path.join("target/staticlib")).unwrap();
    named(
        Path::new(env!("CARGO_BIN_EXE_hogvax")),
        &path.join("hogvax"),
    );
    for archive in [archives::whole(), archives::view()] {
        let name = archive.file_name().unwrap();
        named(&archive, &path.join("target/staticlib").join(name));
    }
    for name in ["samples", "include", "examples"] {
        copy(&repository(name), &path.join(name));
    }
    path
}
