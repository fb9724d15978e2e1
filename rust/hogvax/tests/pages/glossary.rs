//! `docs/GLOSSARY.md`: each term stands once, in alphabetical order, and what it
//! names is there. The names after a colon are looked up in `names`.

use crate::compiler::repository;
use crate::names::between_backticks;
use crate::tables::rows;
use crate::trial::text;

const HEADING: &str = "| term | what it means | defined in |";

/// What terms are sorted by: their letters and digits.
fn key(term: &str) -> String {
    let fits = |letter: &char| letter.is_alphanumeric() || *letter == ' ';
    term.to_lowercase().chars().filter(fits).collect()
}

/// Whether a term is named after one that does not come before it.
fn misplaced<'a>(terms: &[&'a str]) -> Vec<&'a str> {
    let pairs = terms.windows(2).filter(|pair| key(pair[0]) >= key(pair[1]));
    pairs.map(|pair| pair[1]).collect()
}

/// Whether a text between backticks names a file or crate that is there:
/// `formats/specs/Tokens: Tree`, `tree: first_tree` or `docs/WRITING.md`.
fn is_there(cited: &str) -> bool {
    let place = cited.split(':').next().unwrap();
    let paths = [
        format!("crates/{place}.antt"),
        format!("crates/{place}"),
        place.to_owned(),
    ];
    paths.iter().any(|path| repository(path).exists())
}

#[test]
fn each_term_stands_once_in_order() {
    let page = text("docs/GLOSSARY.md");
    let rows = rows(&page, HEADING);
    let terms: Vec<&str> = rows.iter().map(|row| row[0]).collect();
    assert!(terms.len() > 90, "{}", terms.len());
    assert_eq!(misplaced(&terms), [""; 0]);
}

#[test]
fn what_the_glossary_names_is_there() {
    let page = text("docs/GLOSSARY.md");
    let mut cited = 0;
    for row in rows(&page, HEADING) {
        let [term, _, defined] = row[..] else {
            panic!("a row of three cells: {row:?}");
        };
        for name in between_backticks(defined) {
            assert!(is_there(&name), "{term}: {name}");
            cited += 1;
        }
    }
    assert!(cited > 70, "{cited}");
}

#[test]
fn a_wrong_glossary_is_noticed() {
    assert_eq!(misplaced(&["\"end\"", "Entry", "paper, the"]), [""; 0]);
    assert_eq!(misplaced(&["tip", "tip", "tag"]), ["tip", "tag"]);
    assert!(is_there("formats/specs/Tokens: Tree") && is_there("tree: first_tree"));
    assert!(!is_there("formats/specs/Nothing: Tree") && !is_there("docs/NOTHING.md"));
}
