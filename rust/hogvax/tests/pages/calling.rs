//! `docs/CALLING.md`. Its Rust programs are doc tests of the library.

use std::fs;

use crate::compiler::{compiler, succeed};
use crate::page::Page;
use crate::trial::{assert_true, folder, read};

const PAGE: &str = "docs/CALLING.md";

const LIBRARY: &str = include_str!("../../src/lib.rs");

/// The page's C programs, with their names.
fn programs(page: &Page) -> Vec<(&str, &str)> {
    let files = page.files();
    files.filter(|(name, _)| name.ends_with(".c")).collect()
}

/// Its C programs are built by its own lines, and print what it says.
#[test]
fn the_page_on_calling_is_true() {
    assert_true(PAGE);
    let page = read(PAGE);
    for (name, _) in programs(&page) {
        let program = format!("./{}", name.trim_end_matches(".c"));
        let runs = |command: &str| command.split(' ').next() == Some(&program);
        assert!(page.commands().any(runs), "{name}");
    }
    assert!(programs(&page).len() >= 3);
}

/// In every C since 1999.
#[test]
fn the_c_programs_compile_without_a_warning() {
    let (page, folder) = (read(PAGE), folder("strict"));
    for (name, text) in programs(&page) {
        let source = folder.join(name);
        fs::write(&source, text).unwrap();
        for standard in ["c99", "c11", "gnu99", "gnu11"] {
            let mut command = compiler("cc", standard);
            succeed(command.arg("-fsyntax-only").arg(&source));
        }
    }
}

/// Blocks that are not tried here are in Rust, and the library has them as doc
/// tests.
#[test]
fn the_rust_programs_are_doc_tests() {
    let page = read(PAGE);
    for block in &page.others {
        assert_eq!(block.language, "rust", "line {}", block.line);
    }
    assert!(page.others.len() >= 3);
    assert!(LIBRARY.contains("#[doc = include_str!(\"../../../docs/CALLING.md\")]"));
}
