//! The programs `relabel-..`.

use reference::Tree;

use super::parts::{labelled, Step, Tip};

pub fn add_one(tree: &Tree) -> Tree {
    labelled(tree, |tip| {
        tip.label.checked_add(1).expect("a label in range")
    })
}

pub fn swap_0_1(tree: &Tree) -> Tree {
    labelled(tree, |tip| match tip.label {
        0 => 1,
        1 => 0,
        other => other,
    })
}

pub fn purines(tree: &Tree) -> Tree {
    labelled(tree, |tip| match tip.label {
        1 | 3 => 1,
        2 | 4 => 2,
        _ => 0,
    })
}

/// The deepest tips whose numbers are in range: such a number has a bit for each
/// step, and one besides.
pub const DEEPEST_PATH: usize = 30;

pub fn by_path(tree: &Tree) -> Tree {
    labelled(tree, number_of)
}

fn number_of(tip: &Tip) -> i32 {
    assert!(tip.way.len() <= DEEPEST_PATH);
    tip.way.iter().fold(1, |number, step| match step {
        Step::Left => number << 1,
        Step::Right => number << 1 | 1,
    })
}
