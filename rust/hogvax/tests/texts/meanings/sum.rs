//! The programs `sum-..`.

use reference::Tree;

use super::parts::{self, replaced, sum, tips};

pub fn labels(tree: &Tree) -> i32 {
    sum(parts::labels(tree))
}

pub fn known(tree: &Tree) -> i32 {
    let labels = parts::labels(tree);
    sum(labels.into_iter().filter(|&label| label != -1))
}

pub fn even_depth(tree: &Tree) -> i32 {
    let tips = tips(tree);
    let even = tips.iter().filter(|tip| tip.depth() % 2 == 0);
    sum(even.map(|tip| tip.label))
}

pub fn clades_depth_2(tree: &Tree) -> Tree {
    replaced(tree, 2, labels)
}

pub fn left_part(tree: &Tree) -> i32 {
    match tree {
        Tree::Leaf(label) => *label,
        Tree::Node(left, _) => labels(left),
    }
}
