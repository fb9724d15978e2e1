//! Depth and length: what is at a limit, and what is beyond.

use std::time::{Duration, Instant};

use hogvax::newick::read;
use hogvax::Measures;

use super::*;

const TOO_DEEP: &str = "a fork under 1,024 others: no tree may be so deep";

/// The place of the `(` that has so many nodes above it, if there is one.
fn place_under(text: &str, nodes: usize) -> Option<usize> {
    let mut open = 0;
    text.bytes().position(|byte| {
        open += usize::from(byte == b'(');
        let found = byte == b'(' && open == nodes + 1;
        open -= usize::from(byte == b')');
        found
    })
}

/// The tree reader takes what is accepted, to its last byte.
#[test]
fn a_tip_may_stand_under_1024_forks() {
    let mut random = Random::new(421);
    for make in CATERPILLARS {
        for depth in [1_023, 1_024] {
            let tree = make(&mut random, depth);
            let text = format!("{};", text(&tree));
            let read = read(text.as_bytes()).unwrap();
            assert!(read.tokens == tree.tokens());
            let (bytes, tips) = (6 * (depth + 1) - 1, depth + 1);
            let measures = Measures { bytes, tips, depth };
            assert_eq!(hogvax::tree(&read.tokens), Ok(measures));
        }
    }
}

#[test]
fn a_fork_under_1024_others_is_refused_where_it_opens() {
    let mut random = Random::new(422);
    for make in CATERPILLARS {
        for depth in [1_025, 1_100] {
            let tree = make(&mut random, depth);
            let text = format!("{};", text(&tree));
            let column = place_under(&text, 1_024).unwrap() + 1;
            let fault = read(text.as_bytes()).unwrap_err();
            assert_eq!(fault.to_string(), format!("1:{column}: {TOO_DEEP}"));
            let refused = hogvax::tree(&tree.tokens()).unwrap_err();
            assert_eq!(refused.number, 20);
        }
    }
}

/// Forks that are closed count no more.
#[test]
fn depth_counts_open_forks_alone() {
    let mut random = Random::new(423);
    let deep = generate::left_caterpillar(&mut random, 1_024);
    let line = format!("{};\n", text(&deep));
    let read = read(line.repeat(3).as_bytes()).unwrap();
    assert_eq!((read.trees, read.tokens.len()), (3, 3 * (6 * 1_025 - 1)));
}

/// A text of ten million characters, what is said of it, and soon.
#[track_caller]
fn assert_told_soon(text: &[u8], told: &str) {
    let began = Instant::now();
    let fault = read(text).unwrap_err();
    assert_eq!(fault.to_string(), told);
    assert!(began.elapsed() < Duration::from_secs(5), "{told}");
}

#[test]
fn ten_million_characters_of_a_kind_are_refused() {
    let many = |character: &str| character.repeat(10_000_000).into_bytes();
    assert_told_soon(&many("("), &format!("1:1025: {TOO_DEEP}"));
    assert_told_soon(&many("["), "1:1: this comment is not closed");
    // Every two of them stand for one, and the last closes the name.
    let quotes = "'".repeat(32);
    let told = format!("1:1: the tip '{quotes}...' is not a whole number");
    assert_told_soon(&many("'"), &told);
    assert_told_soon(&many(")"), "1:1: no '(' for this ')'");
    assert_told_soon(&many("0"), "1:10000001: the tree has no ';' at its end");
    assert_told_soon(&many("\n("), &format!("1026:1: {TOO_DEEP}"));
}

/// Brackets within brackets take no stack.
#[test]
fn a_comment_may_hold_any_number_of_others() {
    let (open, close) = ("[".repeat(1_000_000), "]".repeat(1_000_000));
    let read = read(format!("{open}{close}1;").as_bytes()).unwrap();
    assert_eq!(read.trees, 1);
}

#[test]
fn many_trees_are_read() {
    let read = read("(1,2);".repeat(300_000).as_bytes()).unwrap();
    assert_eq!((read.trees, read.tokens.len()), (300_000, 3_300_000));
}
