//! Damaged Newick text, beside another reader.

use std::collections::BTreeMap;

use hogvax::newick::{print, read, Trees};
use hogvax::Fault;

use super::dressed::Writer;
use super::*;

/// Bytes that matter to the reader, and others.
const BYTES: &[u8] = b"(),:;'[]+-.0123456789eEx \t\r\n\0\x7f\xc3\xa9\xff";

/// The text with a few bytes put in, taken out, changed or exchanged.
fn damaged(random: &mut Random, mut text: Vec<u8>) -> Vec<u8> {
    for _ in 0..1 + random.below(3) {
        let place = random.below(text.len() + 1);
        match random.below(5) {
            0 => text.insert(place, random.pick(BYTES)),
            1 if place < text.len() => drop(text.remove(place)),
            2 if place < text.len() => text[place] = random.pick(BYTES),
            3 if place < text.len() => {
                let other = random.below(text.len());
                text.swap(place, other);
            }
            _ => text.truncate(place),
        }
    }
    text
}

/// The fault stands in the text or at its end.
fn assert_inside(text: &[u8], fault: &Fault) {
    let lines: Vec<&[u8]> = text.split(|&byte| byte == b'\n').collect();
    let (line, column) = (fault.place.line, fault.place.column);
    assert!((1..=lines.len()).contains(&line), "{fault}");
    let characters = String::from_utf8_lossy(lines[line - 1]).chars().count();
    assert!((1..=characters + 1).contains(&column), "{fault}");
    assert!(!fault.message.contains('\n'), "{fault}");
}

/// What was read is trees, and prints as text that is read alike.
fn assert_trees(trees: &Trees) {
    let printed = print(&trees.tokens).unwrap();
    let again = read(printed.as_bytes()).unwrap();
    assert_eq!((&again.tokens, again.trees), (&trees.tokens, trees.trees));
}

/// Parts of all messages but the one of trees that are too deep.
const MESSAGES: [&str; 17] = [
    "and this is a third",
    "and this one has 1",
    "is not a whole number",
    "is out of range",
    "a tip has a label, and here is none",
    "no ')' for the '('",
    "the tree has no ';' at its end",
    "this quote is not closed",
    "this comment is not closed",
    "',' expected, and here is",
    "')' expected, and here is",
    "';' expected, and here is",
    "no '(' for this ')'",
    "a tip or a fork expected, and here is",
    "a branch length follows ':', and here is none",
    "is not a number",
    "this is not UTF-8",
];

/// The part of a message that is known.
fn known_part(message: &str) -> &'static str {
    let part = MESSAGES.into_iter().find(|part| message.contains(part));
    part.unwrap_or_else(|| panic!("another message: {message}"))
}

/// What is accepted, and as which tokens, is what the other reader says.
fn read_as_another(text: &[u8]) -> Result<Trees, Fault> {
    let (read, other) = (read(text), grammar::trees(text));
    assert_eq!(read.as_ref().ok(), other.as_ref(), "{}", shown(text));
    read
}

/// Every message was seen.
#[test]
fn damaged_text_is_read_as_another_reader_does() {
    let mut random = Random::new(431);
    let (mut accepted, mut seen) = (0, BTreeMap::new());
    for round in 0..40_000 {
        let trees = small_trees(&mut random, 1 + round % 2);
        let mut writer = Writer::new(&mut random);
        trees.iter().for_each(|tree| writer.tree(tree));
        let text = writer.text.into_bytes();
        let text = damaged(&mut random, text);
        match read_as_another(&text) {
            Ok(trees) => {
                accepted += 1;
                assert_trees(&trees);
            }
            Err(fault) => {
                assert_inside(&text, &fault);
                *seen.entry(known_part(&fault.message)).or_insert(0) += 1;
            }
        }
    }
    assert!(accepted > 1_000, "{accepted}");
    assert_eq!(seen.len(), MESSAGES.len(), "{seen:?}");
}

/// Every text of so many of these bytes.
fn every_text(bytes: &[u8], length: u32, check: &mut impl FnMut(&[u8])) {
    let mut text = vec![0; length as usize];
    for mut number in 0..bytes.len().pow(length) {
        for byte in &mut text {
            *byte = bytes[number % bytes.len()];
            number /= bytes.len();
        }
        check(&text);
    }
}

#[test]
fn every_short_text_is_read_as_another_reader_does() {
    let (mut accepted, mut refused) = (0, 0);
    let mut check = |text: &[u8]| match read_as_another(text) {
        Ok(trees) => accepted += usize::from(trees.trees > 0),
        Err(_) => refused += 1,
    };
    for length in 0..=8 {
        every_text(b"(),;1", length, &mut check);
    }
    for length in 0..=5 {
        every_text(b"1-.e: '[];", length, &mut check);
    }
    assert!(accepted > 150 && refused > 100_000, "{accepted} {refused}");
}

/// The other reader takes what the first is known to take and to refuse.
#[test]
fn the_other_reader_knows_the_limit() {
    let mut random = Random::new(433);
    for make in CATERPILLARS {
        let tree = make(&mut random, 1_024);
        let trees = grammar::trees(format!("{};", text(&tree)).as_bytes()).unwrap();
        assert!(trees.tokens == tree.tokens());
        let deeper = make(&mut random, 1_025);
        assert_eq!(
            grammar::trees(format!("{};", text(&deeper)).as_bytes()),
            None
        );
    }
}
