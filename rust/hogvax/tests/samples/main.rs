//! The samples are what `samples/README.md` says.

mod code;
mod files;
#[path = "../shared/folder.rs"]
mod folder;
mod programs;
mod runs;

use std::fs;

use code::codes;
use folder::{bytes, files, hogvax_at_root, samples};
use hogvax::Refused;
use programs::programs;
use reference::{Function, Tree};

/// What the order checker says of a program: all but one pass.
fn verdict(name: &str) -> Result<(), Refused> {
    match name {
        "swap" => Err(Refused {
            number: 11,
            position: 6,
        }),
        _ => Ok(()),
    }
}

/// The section of the README that has this heading, of any level.
fn section(readme: &str, heading: &str) -> String {
    let (_, section) = readme.split_once(&format!("# {heading}\n")).unwrap();
    let (section, _) = section.split_once("\n#").unwrap_or((section, ""));
    section.to_owned()
}

/// A section has a table with this word first in its heading, and a row for
/// each of these, which begins so.
fn assert_rows(section: &str, first: &str, starts: Vec<String>) {
    let heading = format!("| {first} ");
    let lines = section.lines().filter(|line| line.starts_with("| "));
    let rows: Vec<&str> = lines.filter(|line| !line.starts_with(&heading)).collect();
    assert_eq!(rows.len(), starts.len(), "{section}");
    for (row, start) in rows.into_iter().zip(starts) {
        assert!(row.starts_with(&start), "{row}: {start}");
    }
}
