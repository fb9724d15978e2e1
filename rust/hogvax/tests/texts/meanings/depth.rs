//! The programs `depth-..`.

use reference::Tree;

use super::parts::{clades_at, labelled, tips, Tip};

pub fn at_tips(tree: &Tree) -> Tree {
    labelled(tree, Tip::depth)
}

pub fn greatest(tree: &Tree) -> i32 {
    tips(tree).iter().map(Tip::depth).max().unwrap()
}

pub fn least(tree: &Tree) -> i32 {
    tips(tree).iter().map(Tip::depth).min().unwrap()
}

pub fn first_7(tree: &Tree) -> i32 {
    let tips = tips(tree);
    tips.iter()
        .find(|tip| tip.label == 7)
        .map_or(-1, Tip::depth)
}

pub fn lineages_3(tree: &Tree) -> i32 {
    clades_at(tree, 3).len() as i32
}
