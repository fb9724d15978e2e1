//! The links of the documents: the file is there, and has the heading.

use std::collections::HashMap;
use std::fs;
use std::path::{Path, PathBuf};

use crate::names::documents;

/// The targets of the links `[words](target)` of a page, fenced blocks aside,
/// but for those to other sites.
fn targets(text: &str) -> Vec<String> {
    let outside: Vec<&str> = text.split("\n```").step_by(2).collect();
    let outside = outside.join("\n");
    let found = outside.split("](").skip(1);
    let found = found.filter_map(|rest| Some(rest.split_once(')')?.0.to_owned()));
    found.filter(|target| !target.contains("://")).collect()
}

/// The anchors of a page's headings, as sites that show Markdown make them.
fn anchors(text: &str) -> Vec<String> {
    let outside: Vec<&str> = text.split("\n```").step_by(2).collect();
    let outside = outside.join("\n");
    let headings = outside.lines().filter_map(|line| {
        let words = line.trim_start_matches('#');
        (words.len() < line.len()).then(|| words.trim().to_lowercase())
    });
    let kept = |letter: &char| letter.is_alphanumeric() || "-_ ".contains(*letter);
    let anchors = headings.map(|words| words.chars().filter(kept).collect::<String>());
    anchors.map(|words| words.replace(' ', "-")).collect()
}

/// Whether a link of the page at this path leads anywhere.
fn leads(path: &Path, target: &str) -> bool {
    let (file, anchor) = target.split_once('#').unwrap_or((target, ""));
    let path = match file {
        "" => path.to_owned(),
        file => path.parent().unwrap().join(file),
    };
    if anchor.is_empty() {
        return path.exists();
    }
    let text = fs::read_to_string(path);
    text.is_ok_and(|text| anchors(&text).iter().any(|one| one == anchor))
}

#[test]
fn every_link_leads_somewhere() {
    let (mut wrong, mut all) = (Vec::new(), HashMap::<PathBuf, usize>::new());
    for path in documents() {
        for target in targets(&fs::read_to_string(&path).unwrap()) {
            *all.entry(path.clone()).or_default() += 1;
            if !leads(&path, &target) {
                wrong.push(format!("{path:?}: {target}"));
            }
        }
    }
    assert_eq!(wrong, [""; 0]);
    assert!(all.len() > 5 && all.values().sum::<usize>() > 50, "{all:?}");
}

#[test]
fn links_and_headings_are_found() {
    let text =
        "# One, two: `x_y`\n\n[a](b.md#c-d) and [e](https://f)\n\n```\n[g](h)\n# i\n```\n## J k\n";
    assert_eq!(targets(text), ["b.md#c-d"]);
    assert_eq!(anchors(text), ["one-two-x_y", "j-k"]);
}

#[test]
fn a_link_that_leads_nowhere_is_noticed() {
    let tour = crate::compiler::repository("docs/TOUR.md");
    for (target, there) in [
        ("TOUR.md", true),
        ("../README.md", true),
        ("#the-crates", true),
        ("TOUR.md#the-crates", true),
        ("TOUR.md#no-crates", false),
        ("NOTHING.md", false),
    ] {
        assert_eq!(leads(&tour, target), there, "{target}");
    }
}
