//! The documents' lines are short enough to be read in a terminal: prose has at
//! most 100 columns, and a table's row at most 180. So are the crates' comments,
//! and the Rattle code with its contracts, imports aside.

use std::fs;
use std::path::Path;

use crate::compiler::repository;
use crate::names::documents;
use crate::trial::text;

const PROSE: usize = 100;

const ROW: usize = 180;

/// The numbers of the lines that are too long, fenced blocks aside.
fn too_long(text: &str) -> Vec<usize> {
    let (mut found, mut inside) = (Vec::new(), false);
    for (line, number) in text.lines().zip(1..) {
        if line.starts_with("```") {
            inside = !inside;
        }
        let most = if line.starts_with('|') { ROW } else { PROSE };
        // A picture, and text that is shown as it is, can't be broken.
        let whole = inside || line.starts_with("    ") || line.starts_with("![");
        if !whole && line.chars().count() > most {
            found.push(number);
        }
    }
    found
}

#[test]
fn no_line_of_a_document_is_too_long() {
    let mut wrong = Vec::new();
    for path in documents() {
        let page = text(path.to_str().unwrap());
        wrong.extend(
            too_long(&page)
                .iter()
                .map(|line| format!("{path:?}:{line}")),
        );
    }
    assert_eq!(wrong, [""; 0]);
}

#[test]
fn a_line_that_is_too_long_is_noticed() {
    let long = "x".repeat(101);
    let row = format!("|{}|", "x".repeat(179));
    let page = format!(
        "{long}\n|{long}|\n{row}\n```\n{long}\n```\n    {long}\n{}",
        &long[1..]
    );
    assert_eq!(too_long(&page), [1, 3]);
}

/// Whether a line of this file may be longer: an import, and antt that is no comment, whose layout
/// is the formatter's.
fn may_be_long(path: &Path, line: &str) -> bool {
    let line = line.trim_start();
    let is_comment = line.starts_with("--") || line.starts_with("//");
    let is_import = line.starts_with("use ") || line.starts_with("ghost use ");
    is_import || (path.extension().unwrap() == "antt" && !is_comment)
}

#[test]
fn no_comment_and_no_contract_is_too_long() {
    let (mut wrong, mut seen, mut open) = (Vec::new(), 0, vec![repository("crates")]);
    while let Some(path) = open.pop() {
        // What is made of a crate stands there.
        if path.ends_with("out") {
            continue;
        }
        if path.is_dir() {
            open.extend(fs::read_dir(&path).unwrap().map(|one| one.unwrap().path()));
        } else if path
            .extension()
            .is_some_and(|one| one == "antt" || one == "rt")
        {
            seen += 1;
            for (line, number) in fs::read_to_string(&path).unwrap().lines().zip(1..) {
                if line.chars().count() > PROSE && !may_be_long(&path, line) {
                    wrong.push(format!("{path:?}:{number}"));
                }
            }
        }
    }
    assert_eq!(wrong, [""; 0]);
    assert!(seen > 500, "{seen}");
}
