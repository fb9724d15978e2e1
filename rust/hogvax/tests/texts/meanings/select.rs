//! The programs `select-..`.

use reference::Tree;

use super::parts::labels;

pub fn leftmost(tree: &Tree) -> i32 {
    labels(tree)[0]
}

pub fn rightmost(tree: &Tree) -> i32 {
    *labels(tree).last().unwrap()
}

pub fn right_part(tree: &Tree) -> Tree {
    match tree {
        Tree::Leaf(_) => tree.clone(),
        Tree::Node(_, right) => (**right).clone(),
    }
}

pub fn first_not_0(tree: &Tree) -> i32 {
    let labels = labels(tree);
    labels.into_iter().find(|&label| label != 0).unwrap_or(0)
}

pub fn labels_1_2_3(tree: &Tree) -> i32 {
    let labels = labels(tree);
    i32::from(labels.windows(3).any(|three| three == [1, 2, 3]))
}
