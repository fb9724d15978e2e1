//! The files of `samples/texts`: what they are called, hold and say.

use std::fs;

use hogvax::assembly::{self, Numbers};
use reference::Program;

use crate::meanings::MEANINGS;
use crate::{bytes, files, hogvax_at_root, names, program, records, samples, text};

/// The groups of the programs.
const GROUPS: [&str; 9] = [
    "relabel",
    "sum",
    "prune",
    "tips",
    "depth",
    "balance",
    "select",
    "mask",
    "threshold",
];

#[test]
fn there_are_43_texts_each_with_its_listing_and_no_other_file() {
    let both = |name| [format!("{name}.listing"), format!("{name}.txt")];
    let mut expected: Vec<String> = names().flat_map(both).collect();
    assert_eq!(expected.len(), 2 * 43);
    expected.push("README.md".to_owned());
    expected.sort();
    assert_eq!(files("texts"), expected);
}

#[test]
fn every_group_has_some_programs() {
    let group = |name: &'static str| name.split_once('-').unwrap().0;
    for name in names() {
        assert!(GROUPS.contains(&group(name)), "{name}");
    }
    for known in GROUPS {
        let programs = names().filter(|name| group(name) == known).count();
        assert!((3..=7).contains(&programs), "{known}: {programs}");
    }
}

/// What a verb that takes a text prints on both standard streams.
fn says(verb: &str, name: &str) -> (String, String) {
    let output = hogvax_at_root(&[verb, &format!("samples/texts/{name}.txt")]);
    assert_eq!(output.status.code(), Some(0), "{verb} {name}");
    let printed = String::from_utf8(output.stdout).unwrap();
    (printed, String::from_utf8(output.stderr).unwrap())
}

#[test]
fn every_text_passes() {
    for name in names() {
        assert_eq!(hogvax::check(&program(name)), Ok(()), "{name}");
        let program = Program::from_records(&records(name)).unwrap();
        assert!(reference::check_program(&program).is_ok(), "{name}");
        let passed = ("passed\n".to_owned(), String::new());
        assert_eq!(says("check", name), passed, "{name}");
    }
}

#[test]
fn every_text_is_assembled() {
    for name in names() {
        let path = format!("samples/texts/{name}.txt");
        let output = hogvax_at_root(&["assemble", &path]);
        let file = program(name);
        assert!(output.stdout == file, "{name}");
        let answer = format!("file {}\n", file.len());
        assert_eq!(String::from_utf8_lossy(&output.stderr), answer, "{name}");
        assert_eq!(output.status.code(), Some(0), "{name}");
    }
}

#[test]
fn the_listings_are_the_texts() {
    for name in names() {
        let listing = String::from_utf8(bytes(&format!("texts/{name}.listing"))).unwrap();
        assert_eq!(listing, reference::listing(&program(name)), "{name}");
        assert_eq!(says("listing", name), (listing, String::new()), "{name}");
    }
}

/// The lines without comments, the blanks before those, and what is then
/// empty.
fn without_comments(text: &str) -> Vec<&str> {
    let lines = text.lines().map(|line| match line.split_once('#') {
        Some((line, _)) => line.trim_end(),
        None => line,
    });
    lines.filter(|line| !line.is_empty()).collect()
}

/// Two blanks stand before a record for each that it is inside of, and two
/// more.
#[test]
fn every_text_is_laid_out_as_show_prints_it() {
    for name in names() {
        let shown = assembly::show(&program(name), Numbers::Bare).unwrap();
        let text = text(name);
        assert_eq!(without_comments(&text), without_comments(&shown), "{name}");
        assert!(text.lines().all(|line| line == line.trim_end()), "{name}");
    }
}

/// The sentence that begins a text.
fn sentence(name: &str) -> String {
    let text = text(name);
    let (line, _) = text.split_once('\n').unwrap();
    let sentence = line.strip_prefix("# ");
    let sentence = sentence.unwrap_or_else(|| panic!("{name} has no sentence: {line}"));
    assert!(sentence.ends_with('.'), "{name}: {sentence}");
    sentence.to_owned()
}

/// The rows of the table: name, sentence, result, functions and records.
#[test]
fn the_table_has_a_row_for_each_program() {
    let readme = fs::read_to_string(samples("texts/README.md")).unwrap();
    let rows: Vec<&str> = readme
        .lines()
        .filter(|line| line.starts_with("| `") && !line.contains(".nwk`"))
        .collect();
    let mut expected = Vec::new();
    for group in GROUPS {
        let of_group = |name: &&str| name.starts_with(&format!("{group}-"));
        for (name, meaning) in MEANINGS.iter().filter(|(name, _)| of_group(name)) {
            let records = records(name);
            let (functions, all) = (records[1], records.len() / 8);
            let (sentence, result) = (sentence(name), meaning.result());
            expected.push(format!(
                "| `{name}` | {sentence} | {result} | {functions} | {all} |"
            ));
        }
    }
    assert_eq!(rows, expected);
}
