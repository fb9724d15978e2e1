//! Small projects, to try the tool on.

use std::path::PathBuf;

use pages::items::AnttFile;
use pages::project::Project;
use pages::source::Source;

/// A project of two crates, `one` and `two`, with these files.
pub fn project(antt: &[(&str, &str)], rattle: &[(&str, &str)]) -> Project {
    let crates: Vec<String> = ["one", "two"].map(str::to_owned).to_vec();
    let files = antt.iter();
    let files = files.map(|(place, text)| ((*place).to_owned(), AnttFile::new(text, &crates)));
    let sources = rattle.iter();
    let sources = sources.map(|(place, text)| ((*place).to_owned(), Source::new(text, &crates)));
    Project {
        root: PathBuf::new(),
        files: files.collect(),
        sources: sources.collect(),
        crates,
    }
}
