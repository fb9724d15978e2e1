//! The programs `mask-..`.

use reference::Tree;

use super::parts::{labelled, Tip};

/// The same tree, the tips of which this is not said labelled 0.
fn kept(tree: &Tree, stays: fn(&Tip) -> bool) -> Tree {
    labelled(tree, |tip| if stays(tip) { tip.label } else { 0 })
}

pub fn label_7(tree: &Tree) -> Tree {
    kept(tree, |tip| tip.label != 7)
}

pub fn all_but_1_to_4(tree: &Tree) -> Tree {
    kept(tree, |tip| (1..=4).contains(&tip.label))
}

pub fn odd_depth(tree: &Tree) -> Tree {
    kept(tree, |tip| tip.depth() % 2 == 0)
}

pub fn odd_to_9(tree: &Tree) -> Tree {
    kept(tree, |tip| ![1, 3, 5, 7, 9].contains(&tip.label))
}
