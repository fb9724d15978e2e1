//! `docs/TOUR.md` names every crate of `crates.txt` once, in the same order and
//! under the same headings.

use crate::tables::cells;
use crate::trial::text;

/// A section: its heading in small letters, and the crates under it.
type Section = (String, Vec<String>);

/// The sections of `crates.txt`: a heading is a comment that begins with four
/// hyphens, and a crate is the first word before a colon.
fn listed(text: &str) -> Vec<Section> {
    let mut sections: Vec<Section> = Vec::new();
    for line in text.lines() {
        if let Some(heading) = line.strip_prefix("# ---- ") {
            sections.push((heading.to_owned(), Vec::new()));
        } else if let Some((name, _)) = line.split('#').next().unwrap().split_once(':') {
            let (_, crates) = sections.last_mut().expect("a crate under a heading");
            crates.extend(name.split_whitespace().next().map(str::to_owned));
        }
    }
    sections
}

/// The sections of the tour's chapter on the crates: a crate is the first cell
/// of a row, between backticks.
fn toured(text: &str) -> Vec<Section> {
    let (_, chapter) = text.split_once("\n## The crates\n").expect("the chapter");
    let chapter = chapter.split("\n## ").next().unwrap();
    let sections = chapter.split("\n### ").skip(1).map(|section| {
        let (heading, rest) = section.split_once('\n').unwrap();
        let first = rest.lines().filter_map(|line| Some(cells(line)?[0]));
        let crates = first.filter_map(|cell| cell.strip_prefix('`')?.strip_suffix('`'));
        (heading.to_lowercase(), crates.map(str::to_owned).collect())
    });
    sections.collect()
}

#[test]
fn the_tour_has_the_crates_and_sections_of_the_list() {
    let listed = listed(&text("crates.txt"));
    assert!(listed.len() > 5 && listed.iter().all(|(_, crates)| !crates.is_empty()));
    assert_eq!(toured(&text("docs/TOUR.md")), listed);
}

/// Blank lines and other comments do not count, and neither do tables of other
/// chapters.
#[test]
fn sections_are_found() {
    let one = |heading: &str, crates: &[&str]| {
        let crates = crates.iter().map(|&name| name.to_owned()).collect();
        (heading.to_owned(), crates)
    };
    let expected = [one("first", &["a", "b"]), one("second", &["c"])];
    let list =
        "# All: of them.\n\n# ---- first\n\na:\nb: a # c: d\n\n# ---- second\nc staticlib: a b\n";
    assert_eq!(listed(list), expected);
    let page = "| `x` | y |\n\n## The crates\n\n| `x` | y |\n\n### First\n\n| crate | it |\n\
        |---|---|\n| `a` | see `c` |\n| `b` | |\n\n### Second\n\n| `c` | |\n\n## More\n\n| `d` | |\n";
    assert_eq!(toured(page), expected);
}
