//! The header's constants.

use std::collections::BTreeMap;
use std::fmt::Write;

use reference::machine::{INSTRUCTION_BYTES, RETURN_WORDS, VALUE_WORDS};
use reference::{BLOCK_BYTES, BLOCK_LIMIT, RECORD_BYTES};

use super::*;

/// The library's enum of refusals.
const REFUSALS: &str = include_str!("../../../../crates/refusal/src/lib.rt");

/// The names of all constants that the header defines, enumerators too.
fn names() -> Vec<String> {
    let mut names = Vec::new();
    for line in HEADER.lines() {
        let words: Vec<&str> = line.split_whitespace().collect();
        match words[..] {
            ["#define", name, _] => names.push(name.to_owned()),
            [name, "=", ..] => names.push(name.to_owned()),
            _ => {}
        }
    }
    names
}

/// What C takes each of them for.
fn values() -> BTreeMap<String, usize> {
    let mut text = String::from("#include <stdio.h>\n#include \"hogvax.h\"\nint main(void) {\n");
    for name in names() {
        writeln!(text, "    printf(\"{name} %d\\n\", {name});").unwrap();
    }
    text += "    return 0;\n}\n";
    let output = succeed(&mut Command::new(build_text(&text, "constants")));
    let lines = String::from_utf8(output.stdout).unwrap();
    let pair = |line: &str| {
        let (name, value) = line.split_once(' ').unwrap();
        (name.to_owned(), value.parse().unwrap())
    };
    lines.lines().map(pair).collect()
}

/// The refusals by the library's names, with the numbers that it gives them, which
/// are those of their order.
fn refusals() -> Vec<(String, usize)> {
    let (_, cases) = REFUSALS.split_once("pub enum Refusal {\n").unwrap();
    let (cases, _) = cases.split_once("\n}").unwrap();
    let cases = cases.lines().map(str::trim);
    let cases = cases.filter(|line| !line.starts_with("//"));
    let numbered = |(case, place): (&str, usize)| {
        let (name, number) = case.trim_end_matches(',').split_once(" = ").unwrap();
        assert_eq!(number, place.to_string());
        (format!("HOGVAX{}", c_name(name)), place)
    };
    cases.zip(1..).map(numbered).collect()
}

/// `SpaceTooShort` is `_SPACE_TOO_SHORT`.
fn c_name(case: &str) -> String {
    let mut name = String::new();
    for letter in case.chars() {
        if letter.is_uppercase() {
            name.push('_');
        }
        name.extend(letter.to_uppercase());
    }
    name
}

const LENGTHS: [(&str, usize); 13] = [
    ("HOGVAX_RECORD_BYTES", RECORD_BYTES),
    ("HOGVAX_INSTRUCTION_BYTES", INSTRUCTION_BYTES),
    ("HOGVAX_BLOCK_BYTES", BLOCK_BYTES),
    ("HOGVAX_MOST_BLOCKS", BLOCK_LIMIT),
    ("HOGVAX_LONGEST_FILE", hogvax::LONGEST_FILE),
    ("HOGVAX_LONGEST_RECORDS", hogvax::LONGEST_RECORDS),
    ("HOGVAX_LONGEST_CODE", hogvax::LONGEST_CODE),
    ("HOGVAX_VALUE_WORDS", VALUE_WORDS),
    ("HOGVAX_RETURN_WORDS", RETURN_WORDS),
    ("HOGVAX_TREE_SLOTS", 4),
    ("HOGVAX_RUN_SLOTS", 5),
    ("HOGVAX_SOURCE_SLOTS", 6),
    ("HOGVAX_ANSWER_SLOTS", 4),
];

/// Of a stream run: position, units, bytes read, bytes written, the number. Of a
/// source run: position, begun, bytes written, the number, tips, depth. Of the tree
/// reader: position, bytes, tips, depth. Of the other calls: position, bytes.
const SLOTS: [(&str, usize); 13] = [
    ("HOGVAX_POSITION", 0),
    ("HOGVAX_BYTES", 1),
    ("HOGVAX_TIPS", 2),
    ("HOGVAX_DEPTH", 3),
    ("HOGVAX_UNITS", 1),
    ("HOGVAX_READ", 2),
    ("HOGVAX_WRITTEN", 3),
    ("HOGVAX_NUMBER", 4),
    ("HOGVAX_SOURCE_BEGUN", 1),
    ("HOGVAX_SOURCE_WRITTEN", 2),
    ("HOGVAX_SOURCE_NUMBER", 3),
    ("HOGVAX_SOURCE_TIPS", 4),
    ("HOGVAX_SOURCE_DEPTH", 5),
];

/// These constants and no others.
#[test]
fn the_constants_are_right() {
    let refusals = refusals();
    assert_eq!(refusals.len(), 21);
    let others = LENGTHS.iter().chain(&SLOTS);
    let others = others.map(|&(name, value)| (name.to_owned(), value));
    let expected: BTreeMap<String, usize> = others.chain(refusals).collect();
    assert_eq!(values(), expected);
}
