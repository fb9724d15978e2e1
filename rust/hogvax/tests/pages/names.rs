//! The definitions, theorems and functions that the documents cite are there.
//!
//! A citation stands between backticks, with its file below `crates/`:
//! `formats/specs/Reader: TreeReader.gives` is a name of `Reader.antt`,
//! `tree/src/lib.rt: first_tree` and `tree: first_tree` are a function's.

use std::fs;
use std::path::PathBuf;

use crate::compiler::repository;

/// A citation: where it points, and the names that must be declared there.
pub struct Citation {
    pub place: String,
    names: Vec<String>,
}

impl Citation {
    /// The citation that a text between backticks is, if it is one.
    pub fn new(text: &str) -> Option<Citation> {
        let words: Vec<&str> = text.split_whitespace().collect();
        let [place, name] = words[..] else {
            return None;
        };
        let place = place.strip_suffix(':')?;
        let folder = place.split('/').next()?;
        let is_crate = !folder.is_empty() && repository("crates").join(folder).is_dir();
        is_crate.then(|| Citation {
            place: place.to_owned(),
            names: name.split('.').map(str::to_owned).collect(),
        })
    }

    /// The files in which its names may be declared.
    fn files(&self) -> Vec<PathBuf> {
        let path = repository("crates").join(&self.place);
        if self.place.ends_with(".rt") {
            return vec![path];
        }
        if self.place.contains('/') {
            return vec![path.with_extension("antt")];
        }
        let entries = fs::read_dir(path.join("src")).unwrap();
        entries.map(|entry| entry.unwrap().path()).collect()
    }

    pub fn is_true(&self) -> bool {
        let texts = self.files().into_iter().map(fs::read_to_string);
        let texts: Vec<String> = texts.filter_map(Result::ok).collect();
        let declared = |name: &String| texts.iter().any(|text| declares(text, name));
        self.names.iter().all(declared)
    }
}

/// What may stand before the name in a declaration.
const BEFORE: [&str; 6] = ["pub", "abbrev", "unfoldable", "opaque", "extern", "\"C\""];

/// What stands before a name that need not be followed by its type.
const SORTS: [&str; 5] = ["record", "data", "fn", "struct", "enum"];

/// The name that a line begins to declare.
fn declared(line: &str) -> Option<&str> {
    let ends = |letter: char| letter.is_whitespace() || "(){}<>;,".contains(letter);
    let words = line.split(ends).filter(|word| !word.is_empty());
    let mut words = words.skip_while(|word| BEFORE.contains(word));
    match words.next() {
        Some(word) if SORTS.contains(&word) => words.next(),
        Some(word) => (words.next() == Some(":")).then_some(word),
        None => None,
    }
}

/// The names that a text declares.
pub fn declarations(text: &str) -> impl Iterator<Item = &str> {
    text.lines().filter_map(declared)
}

pub fn declares(text: &str, name: &str) -> bool {
    declarations(text).any(|declared| declared == name)
}

/// The texts between backticks, fenced blocks aside.
pub fn between_backticks(text: &str) -> Vec<String> {
    let outside = text.split("\n```").step_by(2).collect::<Vec<_>>();
    let outside = outside.join("\n");
    let pieces = outside.split('`').skip(1).step_by(2);
    pieces.map(str::to_owned).collect()
}

fn citations(text: &str) -> Vec<Citation> {
    let texts = between_backticks(text);
    texts
        .iter()
        .filter_map(|text| Citation::new(text))
        .collect()
}

/// All documents of the repository.
pub fn documents() -> Vec<PathBuf> {
    let entries = fs::read_dir(repository("docs")).unwrap();
    let paths = entries.map(|entry| entry.unwrap().path());
    let is_page = |path: &PathBuf| path.extension().is_some_and(|end| end == "md");
    let mut documents: Vec<PathBuf> = paths.filter(is_page).collect();
    documents.extend(["README.md", "CONTRIBUTING.md", "samples/README.md"].map(repository));
    documents
}

/// These documents have so many citations at least.
const CITING: [(&str, usize); 2] = [("PROMISES.md", 400), ("RELYING.md", 30)];

#[test]
fn what_the_documents_cite_is_there() {
    let (mut wrong, mut citing) = (Vec::new(), 0);
    for path in documents() {
        let citations = citations(&fs::read_to_string(&path).unwrap());
        if let Some((_, least)) = CITING.iter().find(|(name, _)| path.ends_with(name)) {
            assert!(citations.len() >= *least, "{path:?}: {}", citations.len());
            citing += 1;
        }
        for Citation { place, names } in citations.iter().filter(|one| !one.is_true()) {
            wrong.push(format!("{path:?}: {place}: {}", names.join(".")));
        }
    }
    assert_eq!(wrong, [""; 0]);
    assert_eq!(citing, CITING.len());
}

#[test]
fn citations_are_found() {
    let text = "`tree: first_tree` and\n`formats/specs/Reader:\nTreeReader.gives`; \
        `no such thing`, `refused: 11`, `a: b: c`\n\n```\n`tree: first_tree`\n```\n";
    let found = citations(text);
    let found = found.iter().map(|one| (&one.place[..], one.names.len()));
    let found: Vec<_> = found.collect();
    assert_eq!(found, [("tree", 1), ("formats/specs/Reader", 2)]);
}

#[test]
fn a_name_that_is_not_declared_is_told() {
    for (text, there) in [
        ("tree: first_tree", true),
        ("tree: second_tree", false),
        ("tree/src/lib.rt: first_tree", true),
        ("tree/src/lib.rt: Measures", true),
        ("tree/src/no.rt: first_tree", false),
        ("formats/specs/Reader: TreeReader", true),
        ("formats/specs/Reader: TreeReader.gives", true),
        ("formats/specs/Reader: TreeReader.given", false),
        ("formats/specs/Reader: NoReader.gives", false),
        ("formats/specs/Nothing: TreeReader", false),
        // Used there, and declared elsewhere.
        ("formats/specs/Reader: first_tree", false),
    ] {
        let citation = Citation::new(text).unwrap();
        assert_eq!(citation.is_true(), there, "{text}");
    }
}
