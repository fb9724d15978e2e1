//! The must-fail edits that the documents cite are there.
//!
//! A citation stands between backticks as `crate/edit`. In a column of edits
//! the crate may be left out, where the text before the table says it.

use std::fs;

use crate::compiler::repository;
use crate::names::{between_backticks, documents};

/// Whether a text is a name as edits have them.
fn is_name(text: &str) -> bool {
    let fits =
        |letter: char| letter.is_ascii_lowercase() || letter.is_ascii_digit() || letter == '_';
    !text.is_empty() && text.chars().all(fits)
}

/// The crate and the edit that a text between backticks cites, if it does. A
/// folder of a crate and a module of the tests have the same form.
fn cited(text: &str) -> Option<(&str, &str)> {
    let (place, name) = text.split_once('/')?;
    let folder = repository("crates").join(place);
    let is_crate = is_name(place) && folder.is_dir();
    let module = format!("rust/hogvax/tests/{place}/{name}.rs");
    let is_other = folder.join(name).is_dir() || repository(&module).is_file();
    (is_crate && is_name(name) && !is_other).then_some((place, name))
}

pub fn is_there(place: &str, name: &str) -> bool {
    let path = format!("crates/{place}/must-fail/{name}.edit");
    repository(&path).is_file()
}

/// Whether some crate has an edit of this name.
pub fn is_anywhere(name: &str) -> bool {
    let crates = fs::read_dir(repository("crates")).unwrap();
    let places = crates.map(|entry| entry.unwrap().file_name());
    let mut places = places.map(|place| place.into_string().unwrap());
    places.any(|place| is_there(&place, name))
}

/// The citations with their crates that are wrong, and how many there are.
fn wrong_citations(text: &str) -> (Vec<String>, usize) {
    let texts = between_backticks(text);
    let citations: Vec<_> = texts.iter().filter_map(|text| cited(text)).collect();
    let wrong = citations
        .iter()
        .filter(|(place, name)| !is_there(place, name));
    let wrong = wrong.map(|(place, name)| format!("{place}/{name}"));
    (wrong.collect(), citations.len())
}

/// The cells of a table's row.
fn cells(line: &str) -> Vec<&str> {
    let inside = line
        .strip_prefix('|')
        .and_then(|line| line.strip_suffix('|'));
    inside.map_or(Vec::new(), |line| line.split('|').map(str::trim).collect())
}

/// The cells under each heading of this name.
fn column<'a>(text: &'a str, heading: &str) -> Vec<&'a str> {
    let (mut rows, mut place) = (Vec::new(), None);
    for line in text.lines() {
        let cells = cells(line);
        if cells.is_empty() {
            place = None;
        } else if let Some(found) = cells.iter().position(|cell| *cell == heading) {
            place = Some(found);
        } else if let Some(cell) = place.and_then(|place| cells.get(place).copied()) {
            if !cell.starts_with("---") {
                rows.push(cell);
            }
        }
    }
    rows
}

/// The names in the column "must-fail edit" that no crate has.
fn wrong_in_columns(text: &str) -> (Vec<String>, usize) {
    let cells = column(text, "must-fail edit");
    let names = cells.iter().flat_map(|cell| between_backticks(cell));
    let names: Vec<String> = names.filter(|name| is_name(name)).collect();
    let wrong = names.iter().filter(|name| !is_anywhere(name));
    (wrong.cloned().collect(), names.len())
}

#[test]
fn the_edits_that_the_documents_cite_are_there() {
    let mut all = Vec::new();
    for path in documents() {
        let text = fs::read_to_string(&path).unwrap();
        let (wrong, with_crates) = wrong_citations(&text);
        let (in_columns, bare) = wrong_in_columns(&text);
        if path.ends_with("PROMISES.md") {
            assert!(with_crates >= 150 && bare >= 50, "{with_crates} {bare}");
        }
        let wrong = wrong.into_iter().chain(in_columns);
        all.extend(wrong.map(|name| format!("{path:?}: {name}")));
    }
    assert_eq!(all, [""; 0]);
}

/// An edit that is not there is found in a sentence and in a column.
#[test]
fn an_edit_that_is_not_there_is_found() {
    let sentence = "`tree/no_such_edit`, `tree/nothing_for_a_tree`, `formats/proofs`, \
        `source/order`, `no_crate/no_edit`, `tree/src/lib.rt`";
    let (wrong, all) = wrong_citations(sentence);
    assert_eq!((wrong, all), (vec!["tree/no_such_edit".to_owned()], 2));

    let table = "| sentence | must-fail edit |\n|---|---|\n\
        | `no_such_name` | `nothing_for_a_tree`, `no_such_edit`, `two words` |\n\n\
        | sentence |\n|---|\n| `no_such_edit` |\n";
    let (wrong, all) = wrong_in_columns(table);
    assert_eq!((wrong, all), (vec!["no_such_edit".to_owned()], 2));
}
