//! The must-fail edits: wrong answers put into code or definitions, each of which the check must
//! refuse.

use crate::project::{files_below, read, Project};
use crate::source::Declaration;
use crate::text::sentence;

/// A must-fail edit.
#[derive(Clone, Debug)]
pub struct Edit {
    /// Its crate.
    pub place: String,
    pub name: String,
    /// The sentence of its first line.
    pub says: String,
    /// The file that it changes, as `tree/src/lib`.
    pub file: String,
    /// The declarations, by their full names, or the definitions that it changes.
    pub changes: Vec<String>,
}

impl Edit {
    fn new(project: &Project, place: &str, name: &str, text: &str) -> Edit {
        let first = text.lines().next().and_then(|line| line.strip_prefix("# "));
        let first = first.unwrap_or_else(|| panic!("{place}/{name}: the first line says nothing"));
        let all = |start: &str| {
            let lines = text.lines().filter_map(|line| line.strip_prefix(start));
            lines.map(str::to_owned).collect::<Vec<_>>()
        };
        let path = &all("file: ")[0];
        let source = read(&project.root.join("crates").join(place).join(path));
        let file = format!("{place}/{}", path.rsplit_once('.').unwrap().0);
        let old = all("old: ");
        let changes = old.iter().filter(|line| !line.starts_with("use "));
        let changes = changes.map(|old| changed(project, &file, &source, old));
        let mut changes: Vec<String> = changes.collect();
        changes.dedup();
        Edit {
            place: place.to_owned(),
            name: name.to_owned(),
            says: sentence(first),
            file,
            changes,
        }
    }

    /// Whether it changes a definition.
    pub fn is_of_definition(&self) -> bool {
        self.file.split('/').nth(1) == Some("specs")
    }
}

/// The declaration or the definition that a line of a file stands in.
fn changed(project: &Project, file: &str, source: &str, old: &str) -> String {
    let lines = source.lines().enumerate();
    let mut lines = lines.filter(|(_, line)| line.contains(old));
    let (Some((line, _)), None) = (lines.next(), lines.next()) else {
        panic!("{file} does not have one line with {old}");
    };
    let found = match project.sources.get(file) {
        Some(source) => source.at_line(line).map(Declaration::full_name),
        None => project.files[file]
            .at_line(line)
            .map(|item| item.name.clone()),
    };
    found.unwrap_or_else(|| panic!("{file}: {old} stands in no declaration"))
}

/// All edits, by their crates in the order of `crates.txt`.
pub fn edits(project: &Project) -> Vec<Edit> {
    let mut edits = Vec::new();
    for place in &project.crates {
        let folder = project.root.join("crates").join(place).join("must-fail");
        if !folder.is_dir() {
            continue;
        }
        for path in files_below(&folder) {
            let name = path.file_stem().unwrap().to_str().unwrap();
            edits.push(Edit::new(project, place, name, &read(&path)));
        }
    }
    edits
}
