//! `docs/PROMISES.md`: every name on it is there. Citations with their file are
//! looked up in `names`, edits with their crate in `edits`; here is what else
//! stands between backticks: a name alone, a record's field, a path.
//!
//! A name alone is looked up in the files that its row or paragraph names, in
//! those that the prose of its section names, and in those of the records that
//! stand there. A row that goes on with the one above it goes on with its files.

use std::collections::{BTreeMap, BTreeSet, HashSet};
use std::fs;
use std::path::{Path, PathBuf};

use crate::compiler::repository;
use crate::edits;
use crate::names::{between_backticks, declarations, Citation};
use crate::tables::cells;

/// Words of the languages that the page uses, which nothing declares.
const WORDS: [&str; 2] = ["requires", "unsafe"];

/// The section that lists the records with their files.
const RECORDS: &str = "The records";

/// All files below a folder with one of these endings, but those of a crate's `out/`.
fn files_below(folder: &Path, endings: &[&str]) -> Vec<PathBuf> {
    let entries = fs::read_dir(folder).unwrap();
    let paths = entries.map(|entry| entry.unwrap().path());
    let paths = paths.filter(|path| !path.ends_with("out"));
    let (folders, files): (Vec<_>, Vec<_>) = paths.partition(|path| path.is_dir());
    let ends = |path: &PathBuf| {
        let name = path.to_str().unwrap();
        endings.iter().any(|end| name.ends_with(end))
    };
    let below = folders.iter().flat_map(|path| files_below(path, endings));
    files.into_iter().filter(ends).chain(below).collect()
}

/// The names that each file of the project declares, by the file's path.
struct Declared {
    files: BTreeMap<String, HashSet<String>>,
}

/// Paths of files.
type Files = BTreeSet<String>;

impl Declared {
    fn new() -> Declared {
        let mut files = BTreeMap::new();
        for (folder, endings) in [
            ("crates", &[".antt", ".rt"][..]),
            ("rust/hogvax/tests", &[".rs"]),
        ] {
            let root = repository(folder);
            for path in files_below(&root, endings) {
                let text = fs::read_to_string(&path).unwrap();
                let names = declarations(&text).map(str::to_owned).collect();
                let path = path.strip_prefix(&root).unwrap();
                files.insert(format!("{folder}/{}", path.display()), names);
            }
        }
        Declared { files }
    }

    /// The files that a text between backticks names: a file, all in a folder, or
    /// a crate's code.
    fn named(&self, text: &str) -> Files {
        let place = text.split(':').next().unwrap().trim_end_matches('/');
        let code = if place.contains('/') { "" } else { "src/" };
        let files = [
            format!("crates/{place}"),
            format!("crates/{place}.antt"),
            format!("rust/hogvax/tests/{place}"),
            format!("rust/hogvax/tests/{place}.rs"),
        ];
        let folders = [
            format!("crates/{place}/{code}"),
            format!("rust/hogvax/tests/{place}/"),
        ];
        let is_named = |path: &&String| {
            files.contains(path) || folders.iter().any(|folder| path.starts_with(folder))
        };
        self.files.keys().filter(is_named).cloned().collect()
    }

    /// The files that a row or a paragraph names, and those of its records.
    fn named_in(&self, text: &str, records: &BTreeMap<String, Files>) -> Files {
        let texts = between_backticks(text);
        let files = texts.iter().flat_map(|text| {
            let record = text.split('.').next().unwrap();
            let of_record = records.get(record).into_iter().flatten().cloned();
            self.named(text).into_iter().chain(of_record)
        });
        files.collect()
    }

    /// Whether one of these files declares a record and its field, or a name alone.
    fn has(&self, files: &Files, text: &str) -> bool {
        let in_file = |file: &String| text.split('.').all(|name| self.files[file].contains(name));
        files.iter().any(in_file)
    }

    /// The records with the files that declare them, by the section that lists them.
    fn records(&self, page: &str) -> BTreeMap<String, Files> {
        let mut records = BTreeMap::new();
        let section = sections(page).find(|(heading, _)| *heading == RECORDS);
        let rows = section.map_or("", |(_, text)| text).lines();
        for cells in rows.filter_map(cells).filter(|cells| cells.len() > 1) {
            let places = between_backticks(cells[1]);
            let files: Files = places.iter().flat_map(|place| self.named(place)).collect();
            for name in between_backticks(cells[0]) {
                let declares = |file: &&String| self.files[*file].contains(&name);
                let declaring = files.iter().filter(declares).cloned().collect();
                records.insert(name, declaring);
            }
        }
        records
    }
}

/// The sections of a page with their headings.
fn sections(page: &str) -> impl Iterator<Item = (&str, &str)> {
    let sections = page.split("\n## ");
    sections.filter_map(|section| section.split_once('\n'))
}

/// The rows and paragraphs of a section; a row that goes on with the one above it
/// is with it.
fn pieces(section: &str) -> Vec<String> {
    let mut pieces: Vec<String> = Vec::new();
    for paragraph in section.split("\n\n") {
        if !paragraph.starts_with('|') {
            pieces.push(paragraph.to_owned());
            continue;
        }
        for line in paragraph.lines() {
            let first = cells(line).map_or("", |cells| cells[0]);
            match pieces.last_mut() {
                Some(above) if first.is_empty() || first.starts_with("..") => *above += line,
                _ => pieces.push(line.to_owned()),
            }
        }
    }
    pieces
}

/// Whether a text may be a name, or a record with a field.
fn is_name(text: &str) -> bool {
    let begins = |name: &str| name.starts_with(|letter: char| letter.is_ascii_alphabetic());
    let fits = |letter: char| letter.is_ascii_alphanumeric() || "-_.".contains(letter);
    text.split('.').all(begins) && text.chars().all(fits)
}

/// Whether a file or a folder is below the repository, the crates or the tests.
fn is_path(text: &str) -> bool {
    let below = ["", "crates/", "rust/hogvax/tests/"];
    let endings = ["", ".antt", ".rs"];
    let mut all = below
        .iter()
        .flat_map(|below| endings.map(|end| (below, end)));
    all.any(|(below, end)| repository(&format!("{below}{text}{end}")).exists())
}

/// Whether a text is an edit: with its crate, or of a crate that the prose names.
fn is_edit(text: &str, prose: &[String]) -> bool {
    match text.split_once('/') {
        Some((place, name)) => edits::is_there(place, name),
        None => prose.iter().any(|place| edits::is_there(place, text)),
    }
}

/// What no citation, edit, path or declaration is, and how many texts there are.
fn missing(page: &str) -> (Vec<String>, usize) {
    let declared = Declared::new();
    let records = declared.records(page);
    let (mut wrong, mut all) = (Vec::new(), 0);
    for (_, section) in sections(page) {
        let pieces = pieces(section);
        let prose = pieces.iter().filter(|piece| !piece.starts_with('|'));
        let prose: Vec<&str> = prose.map(String::as_str).collect();
        let prose = prose.join("\n\n");
        let of_section = declared.named_in(&prose, &records);
        let prose = between_backticks(&prose);
        for piece in &pieces {
            let mut files = declared.named_in(piece, &records);
            files.extend(of_section.iter().cloned());
            let is_there =
                |text: &str| is_edit(text, &prose) || is_path(text) || declared.has(&files, text);
            let asked = |text: &&String| {
                let is_word = WORDS.contains(&&text[..]);
                let is_asked = is_name(text) || text.contains('/') || text.ends_with(".rs");
                is_asked && !is_word && Citation::new(text).is_none()
            };
            let texts = between_backticks(piece);
            all += texts.len();
            let not_there = texts.iter().filter(asked).filter(|text| !is_there(text));
            wrong.extend(not_there.cloned());
        }
    }
    (wrong, all)
}

#[test]
fn every_name_on_the_page_of_promises_is_there() {
    let page = fs::read_to_string(repository("docs/PROMISES.md")).unwrap();
    let (wrong, all) = missing(&page);
    assert_eq!(wrong, [""; 0]);
    assert!(all >= 1000, "{all}");
}

/// A name, a field, an edit and a path that are not there are found, and so is a
/// name that only a file declares that is not named there.
#[test]
fn a_name_that_is_not_there_is_found() {
    let page = "# Page\n\n## The records\n\n| `TreeReader` | `formats/specs/Reader` |\n\n\
        ## Tokens\n\nOf `formats/specs/Tokens`, edits of `refusal`.\n\n\
        `TreeReader.gives`, `TreeReader.no_such_field`, `first_tree`, `second_tree`, `tree_result`, \
        `tree: second_tree`, `tree/exchanged`, `refusal/exchanged`, `run/space`, `run/time`, \
        `formats/specs/Reader`, `tree.rs`, `three.rs`, `pending`, `&input[..end]`, `requires`, \
        `exchanged`, `depth_1025_read`\n\n\
        | sentence | name |\n|---|---|\n| a | `tree/specs/Inner/TreeResults: tree_result` |\n\
        | .. | `tree_result` |\n| b | `tree_result` |\n\n## Other\n\n`first_tree`\n";
    let (wrong, all) = missing(page);
    let expected = [
        "TreeReader.no_such_field",
        "second_tree",
        "tree_result",
        "tree/exchanged",
        "run/time",
        "three.rs",
        "depth_1025_read",
        "tree_result",
        "first_tree",
    ];
    assert_eq!((&wrong[..], all), (&expected.map(str::to_owned)[..], 26));
}
