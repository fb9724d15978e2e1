//! All files of the project, read and taken apart.

use std::collections::BTreeMap;
use std::fs;
use std::path::{Path, PathBuf};

use crate::items::AnttFile;
use crate::source::Source;

pub struct Project {
    pub root: PathBuf,
    /// The crates in the order of `crates.txt`: each after those that it uses.
    pub crates: Vec<String>,
    /// The antt files of specs/ by their places, as `formats/specs/Reader`.
    pub files: BTreeMap<String, AnttFile>,
    /// The Rattle files by their places, as `tree/src/lib`.
    pub sources: BTreeMap<String, Source>,
}

impl Project {
    /// The project that this crate stands in.
    pub fn here() -> Project {
        Project::new(&Path::new(env!("CARGO_MANIFEST_DIR")).join("../.."))
    }

    pub fn new(root: &Path) -> Project {
        let listed = read(&root.join("crates.txt"));
        let lines = listed.lines().filter(|line| !line.starts_with('#'));
        let names = lines.filter_map(|line| line.split_once(':'));
        // A word after the name says what the crate is built as.
        let names = names.filter_map(|(name, _)| name.split_whitespace().next());
        let crates: Vec<String> = names.map(str::to_owned).collect();
        let (mut files, mut sources) = (BTreeMap::new(), BTreeMap::new());
        for place in &crates {
            let folder = root.join("crates").join(place);
            let parts = ["specs", "src"].map(|part| folder.join(part));
            let parts = parts.iter().filter(|part| part.is_dir());
            for path in parts.flat_map(|part| files_below(part)) {
                let inside = path.strip_prefix(root.join("crates")).unwrap();
                let name = inside.with_extension("").to_str().unwrap().to_owned();
                match inside.extension().and_then(|end| end.to_str()) {
                    Some("antt") => {
                        files.insert(name, AnttFile::new(&read(&path), &crates));
                    }
                    Some("rt") => {
                        sources.insert(name, Source::new(&read(&path), &crates));
                    }
                    _ => (),
                }
            }
        }
        Project {
            root: root.to_owned(),
            crates,
            files,
            sources,
        }
    }

    /// The Rattle files of a crate.
    pub fn sources_of<'a>(&'a self, place: &str) -> impl Iterator<Item = &'a Source> {
        let start = format!("{place}/src/");
        let all = self.sources.iter();
        all.filter(move |(name, _)| name.starts_with(&start))
            .map(|(_, source)| source)
    }
}

pub fn read(path: &Path) -> String {
    fs::read_to_string(path).unwrap_or_else(|why| panic!("{}: {why}", path.display()))
}

/// All files below a folder, in order.
pub fn files_below(folder: &Path) -> Vec<PathBuf> {
    let entries = fs::read_dir(folder).unwrap_or_else(|why| panic!("{}: {why}", folder.display()));
    let mut paths: Vec<PathBuf> = entries.map(|entry| entry.unwrap().path()).collect();
    paths.sort();
    let below = |path: PathBuf| match path.is_dir() {
        true => files_below(&path),
        false => vec![path],
    };
    paths.into_iter().flat_map(below).collect()
}

/// The crate that a place stands in.
pub fn crate_of(place: &str) -> &str {
    place.split('/').next().unwrap()
}
