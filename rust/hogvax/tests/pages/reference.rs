//! `docs/REFERENCE.md`: its tables of refusals and limits have the numbers of
//! the definitions and of the C header, and what it names is there.

use std::collections::BTreeMap;
use std::fs;

use crate::citations::{headings, section, PAGE};
use crate::compiler::repository;
use crate::names::{between_backticks, declares, documents};
use crate::trial::text;

/// The cells of each row of the tables in a text, headings of columns and
/// rulers aside.
fn rows(text: &str) -> Vec<Vec<&str>> {
    let lines: Vec<&str> = text.lines().collect();
    let ruled = |at: usize| lines.get(at).is_some_and(|line| line.starts_with("|---"));
    let is_row = |at: &usize| lines[*at].starts_with('|') && !ruled(*at) && !ruled(*at + 1);
    let rows = (0..lines.len()).filter(is_row).map(|at| {
        let cells = lines[at].trim_matches('|').split('|');
        cells.map(str::trim).collect()
    });
    rows.collect()
}

/// The names that a file of definitions gives a number in decimal.
fn numbers(definitions: &str) -> BTreeMap<String, u64> {
    let lines = definitions.lines().filter_map(|line| {
        let (name, number) = line.split_once(" = ")?;
        let is_name = name
            .chars()
            .all(|letter| letter.is_alphanumeric() || letter == '_');
        Some((name.to_owned(), number.parse().ok()?)).filter(|_| is_name)
    });
    lines.collect()
}

/// The constants of the C header, of its enum and its macros.
fn constants() -> BTreeMap<String, u64> {
    let header = text("include/hogvax.h");
    let lines = header.lines().filter_map(|line| {
        let line = line.split("/*").next()?.trim().trim_end_matches(',');
        let (name, number) = match line.strip_prefix("#define ") {
            Some(macro_line) => macro_line.split_once(' ')?,
            None => line.split_once(" = ")?,
        };
        Some((name.to_owned(), number.trim().parse().ok()?))
    });
    lines.collect()
}

/// The constant of a refusal's name: `file_length` is `HOGVAX_FILE_LENGTH`.
fn constant_of(name: &str) -> String {
    let letters = name.chars().map(|letter| match letter.is_uppercase() {
        true => format!("_{letter}"),
        false => letter.to_uppercase().to_string(),
    });
    format!("HOGVAX_{}", letters.collect::<String>())
}

#[test]
fn the_table_of_refusals_has_every_refusal() {
    let page = section(&text(PAGE), "The table of refusals");
    let rows = rows(&page);
    let named = rows.iter().filter(|cells| cells[1].starts_with('`'));
    let table: BTreeMap<String, u64> = named
        .map(|cells| (cells[1].replace('`', ""), cells[0].parse().unwrap()))
        .collect();
    let defined = numbers(&text("crates/formats/specs/Refusals.antt"));
    assert_eq!(table, defined);
    assert_eq!(table.len(), 21);
    let constants = constants();
    for (name, number) in &table {
        let constant = constants.get(&constant_of(name));
        assert_eq!(constant, Some(number), "{name}");
    }
}

/// Every refusal has a row that says its position and its calls.
#[test]
fn the_positions_of_all_refusals_are_said() {
    let page = section(&text(PAGE), "The table of refusals");
    let rows = rows(&page);
    let others = rows.iter().filter(|cells| !cells[1].starts_with('`'));
    let numbers = others.flat_map(|cells| cells[0].split(", "));
    let mut numbers: Vec<u64> = numbers.map(|number| number.parse().unwrap()).collect();
    numbers.sort_unstable();
    assert_eq!(numbers, (1..=21).collect::<Vec<u64>>());
}

#[test]
fn the_limits_are_those_of_the_definitions() {
    let page = section(&text(PAGE), "Limits");
    let (constants, mut listed) = (constants(), Vec::new());
    for cells in rows(&page) {
        let most: u64 = cells[1].replace(',', "").parse().unwrap();
        let citation = cells[2].replace('`', "");
        let (place, name) = citation.split_once(": ").unwrap();
        let defined = numbers(&text(&format!("crates/{place}.antt")));
        assert_eq!(defined.get(name), Some(&most), "{citation}");
        if !cells[3].is_empty() {
            let constant = constants.get(&cells[3].replace('`', ""));
            assert_eq!(constant, Some(&most), "{citation}");
        }
        listed.push(citation);
    }
    assert!(listed.len() >= 19, "{}", listed.len());
    for place in ["formats", "rules", "meaning", "translation"] {
        for (citation, _) in limits_of(place) {
            assert!(listed.contains(&citation), "{citation}");
        }
    }
}

/// The numbers that begin with "most" in the definitions of a crate.
fn limits_of(place: &str) -> Vec<(String, u64)> {
    let folder = format!("crates/{place}/specs");
    let entries = fs::read_dir(repository(&folder)).unwrap();
    let paths = entries.map(|entry| entry.unwrap().path());
    let limits = paths.filter(|path| path.is_file()).flat_map(|path| {
        let file = path.file_stem().unwrap().to_str().unwrap().to_owned();
        let numbers = numbers(&fs::read_to_string(&path).unwrap());
        let limits = numbers
            .into_iter()
            .filter(|(name, _)| name.starts_with("most"));
        let cited = limits.map(move |(name, most)| (format!("{file}: {name}"), most));
        cited.collect::<Vec<_>>()
    });
    let cited = limits.map(|(name, most)| (format!("{place}/specs/{name}"), most));
    cited.collect()
}

/// The files that the page names, each with the names that it says are there:
/// those in parentheses right after it.
fn named_files(page: &str) -> Vec<(String, Vec<String>)> {
    let pieces: Vec<&str> = page.split('`').collect();
    let mut files: Vec<(String, Vec<String>)> = Vec::new();
    let mut listing = false;
    for pair in pieces.chunks(2).collect::<Vec<_>>().windows(2) {
        let (outside, inside, after) = (pair[0][0], pair[0][1], pair[1][0]);
        listing = listing && !outside.starts_with(')');
        if inside.starts_with("crates/") {
            files.push((inside.to_owned(), Vec::new()));
            listing = after.split_whitespace().next() == Some("(");
        } else if listing {
            files.last_mut().unwrap().1.push(inside.to_owned());
        }
    }
    files
}

#[test]
fn the_files_and_names_of_the_reference_are_there() {
    let page = text(PAGE);
    let outside: Vec<&str> = page.split("\n```").step_by(2).collect();
    let files = named_files(&outside.join("\n"));
    for (file, names) in &files {
        if file.contains('*') {
            continue;
        }
        assert!(repository(file).exists(), "{file}");
        for name in names {
            assert!(declares(&text(file), name), "{file}: {name}");
        }
    }
    let names: usize = files.iter().map(|(_, names)| names.len()).sum();
    assert!(files.len() >= 60 && names >= 30, "{} {names}", files.len());
}

/// What a link to a heading has after `#`.
fn anchor(heading: &str) -> String {
    let kept = heading
        .chars()
        .filter(|letter| letter.is_alphanumeric() || " -".contains(*letter));
    kept.collect::<String>().to_lowercase().replace(' ', "-")
}

#[test]
fn links_to_the_reference_lead_to_a_heading() {
    let headings = headings(&text(PAGE));
    let anchors: Vec<String> = headings.iter().map(|heading| anchor(heading)).collect();
    let mut different = anchors.clone();
    different.sort();
    different.dedup();
    assert_eq!(different.len(), anchors.len(), "a heading stands twice");
    for path in documents() {
        let text = fs::read_to_string(&path).unwrap();
        let own = path.ends_with(PAGE);
        let links = text
            .split(if own { "](#" } else { "REFERENCE.md#" })
            .skip(1);
        for link in links.map(|link| link.split(')').next().unwrap()) {
            assert!(anchors.contains(&link.to_owned()), "{path:?}: {link}");
        }
    }
}

/// The listing that the page shows is that of the sample.
#[test]
fn the_listing_is_that_of_grow() {
    let page = text(PAGE);
    let block = page.split("```text\n").nth(1).unwrap();
    let shown = block.split("```").next().unwrap();
    assert_eq!(shown, text("samples/listings/grow.listing"));
}

#[test]
fn the_calls_that_the_reference_names_are_declared() {
    let header = text("include/hogvax.h");
    let page = text(PAGE);
    let sections = ["The table of refusals", "The order of the tests"];
    let tables = sections.map(|heading| section(&page, heading)).concat();
    let cells = rows(&tables).concat().join(" ");
    let is_call = |name: &String| {
        name.chars()
            .all(|letter| letter.is_lowercase() || letter == '_')
    };
    let refusals = numbers(&text("crates/formats/specs/Refusals.antt"));
    let calls: Vec<String> = between_backticks(&cells)
        .into_iter()
        .filter(|name| is_call(name) && !refusals.contains_key(name))
        .collect();
    assert!(calls.len() >= 20, "{}", calls.len());
    for call in calls {
        assert!(header.contains(&format!(" hogvax_{call}(")), "{call}");
    }
}
