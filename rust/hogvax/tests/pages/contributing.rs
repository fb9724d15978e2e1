//! `CONTRIBUTING.md`: the definitions, functions and files of its tables are
//! there, and its list for a new kind of record is whole.

use std::fs;
use std::path::{Path, PathBuf};

use crate::compiler::repository;
use crate::names::{between_backticks, Citation};
use crate::tables::cells;
use crate::trial::text;

const PAGE: &str = "CONTRIBUTING.md";

/// The chapter under this heading.
fn chapter<'a>(page: &'a str, heading: &str) -> &'a str {
    let (_, rest) = page.split_once(&format!("\n## {heading}\n")).unwrap();
    rest.split("\n## ").next().unwrap()
}

/// What the first cells of the tables name wrongly, and how many names there
/// are. Names that follow a citation are in the same file; a file of Rust is
/// below `rust/`, or beside the one before it.
fn wrong(page: &str) -> (Vec<String>, usize) {
    let (mut wrong, mut all) = (Vec::new(), 0);
    for cells in page.lines().filter_map(cells) {
        let (mut place, mut folder) = (String::new(), PathBuf::new());
        for name in between_backticks(cells[0]) {
            let there = if let Some(citation) = Citation::new(&name) {
                place.clone_from(&citation.place);
                citation.is_true()
            } else if name.ends_with(".rs") || name.ends_with('/') {
                let paths = [repository("rust").join(&name), folder.join(&name)];
                let found = paths.into_iter().find(|path| path.exists());
                folder = found
                    .as_deref()
                    .and_then(Path::parent)
                    .unwrap_or(&folder)
                    .to_owned();
                found.is_some()
            } else if place.is_empty() {
                continue;
            } else {
                Citation::new(&format!("{place}: {name}")).is_some_and(|one| one.is_true())
            };
            all += 1;
            if !there {
                wrong.push(name);
            }
        }
    }
    (wrong, all)
}

#[test]
fn what_the_tables_name_is_there() {
    let (wrong, all) = wrong(&text(PAGE));
    assert_eq!(wrong, [""; 0]);
    assert!(all > 80, "{all}");
}

#[test]
fn a_wrong_name_is_noticed() {
    let page =
        "| `formats/specs/Records: Kind`, `kinds`, `sorts` | |\n| `tree: first_tree`, `no` | |\n\
        | `reference/src/program/expr.rs`, `rows.rs`, `none.rs` | |\n| `rt check` | `none.rs` |\n";
    let expected = ["sorts", "no", "none.rs"].map(str::to_owned);
    assert_eq!(wrong(page), (expected.to_vec(), 8));
}

/// The files of this folder of a crate.
fn files(crate_: &Path, folder: &str) -> Vec<PathBuf> {
    let entries = fs::read_dir(crate_.join(folder)).into_iter().flatten();
    let paths = entries.map(|entry| entry.unwrap().path());
    paths.filter(|path| path.is_file()).collect()
}

/// Whether a line that is neither a comment nor an import names the kind IfZero.
fn goes_by_kind(text: &str) -> bool {
    let is_name = |letter: char| letter.is_alphanumeric() || "-_".contains(letter);
    let lines = text.lines().map(str::trim_start);
    let mut lines = lines.filter(|line| {
        let others = ["--", "//", "use ", "ghost use "];
        !others.iter().any(|other| line.starts_with(other))
    });
    lines.any(|line| {
        let mut words = line.split(|letter| !is_name(letter));
        words.any(|word| word == "IfZero" || word == "if_zero")
    })
}

/// The name under which a document cites a definition's file or a crate's code.
fn cited(path: &Path) -> String {
    let path = path.strip_prefix(repository("crates")).unwrap();
    let whole = path.with_extension("").display().to_string();
    whole.split("/src/").next().unwrap().to_owned()
}

/// Every definition and every function that goes through all kinds is in the
/// list, taking IfZero for an example.
#[test]
fn the_list_for_a_new_kind_is_whole() {
    let page = text(PAGE);
    let chapter = chapter(&page, "A kind of record");
    let (mut missing, mut found) = (Vec::new(), 0);
    for entry in fs::read_dir(repository("crates")).unwrap() {
        let path = entry.unwrap().path();
        let folders = ["specs", "specs/Inner", "src"];
        for file in folders.iter().flat_map(|folder| files(&path, folder)) {
            if goes_by_kind(&fs::read_to_string(&file).unwrap()) {
                found += 1;
                let cited = cited(&file);
                if !chapter.contains(&format!("`{cited}: ")) {
                    missing.push(cited);
                }
            }
        }
    }
    assert_eq!(missing, [""; 0]);
    assert!(found > 20, "{found}");
}
