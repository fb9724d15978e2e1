//! The programs `tips-..`.

use reference::Tree;

use super::parts::{clades, labelled, labels, replaced};

pub fn count(tree: &Tree) -> i32 {
    tree.tips() as i32
}

pub fn label_7(tree: &Tree) -> i32 {
    let sevens = labels(tree).into_iter().filter(|&label| label == 7);
    sevens.count() as i32
}

pub fn clades_depth_2(tree: &Tree) -> Tree {
    replaced(&labelled(tree, |_| 1), 2, count)
}

/// Whether all tips are labelled 7.
fn is_pure(tree: &Tree) -> bool {
    label_7(tree) == count(tree)
}

pub fn pure_clades_7(tree: &Tree) -> i32 {
    match tree {
        _ if is_pure(tree) => 1,
        Tree::Leaf(_) => 0,
        Tree::Node(left, right) => pure_clades_7(left) + pure_clades_7(right),
    }
}

pub fn monophyly_7(tree: &Tree) -> i32 {
    let sevens = label_7(tree);
    let clades = clades(tree);
    let mut pure = clades.iter().filter(|clade| is_pure(clade));
    i32::from(pure.any(|clade| count(clade) == sevens))
}
