//! `README.md`.

use crate::names::documents;
use crate::trial::{assert_true, text};

#[test]
fn the_readme_is_true() {
    assert_true("README.md");
}

/// Its table "What to read" has a line for each document.
#[test]
fn the_readme_lists_every_document() {
    let page = text("README.md");
    let (_, table) = page.split_once("\n## What to read\n").unwrap();
    for path in documents() {
        let name = path.file_name().unwrap().to_str().unwrap();
        let lines = table.lines().filter(|line| {
            let link = [format!("/{name})"), format!("({name})")];
            line.starts_with("| [") && link.iter().any(|link| line.contains(link))
        });
        let expected = if name == "README.md" { 2 } else { 1 };
        assert_eq!(lines.count(), expected, "{name}");
    }
}
