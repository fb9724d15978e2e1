//! The programs `threshold-..`.

use reference::Tree;

use super::parts::{labelled, tips};

pub fn depth_2(tree: &Tree) -> Tree {
    labelled(tree, |tip| i32::from(tip.depth() >= 2))
}

pub fn tips_10(tree: &Tree) -> i32 {
    i32::from(tree.tips() >= 10)
}

pub fn greatest_depth_5(tree: &Tree) -> i32 {
    i32::from(tips(tree).iter().all(|tip| tip.depth() <= 5))
}

pub fn label_4(tree: &Tree) -> Tree {
    labelled(tree, |tip| i32::from(!(0..=3).contains(&tip.label)))
}
