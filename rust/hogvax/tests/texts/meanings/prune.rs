//! The programs `prune-..`.

use reference::Tree;

use super::parts::{is_tip, labels, replaced};

fn first_label(tree: &Tree) -> i32 {
    labels(tree)[0]
}

pub fn depth_3(tree: &Tree) -> Tree {
    replaced(tree, 3, first_label)
}

pub fn right_parts(tree: &Tree) -> Tree {
    let (mut place, mut right_parts) = (tree, Vec::new());
    while let Tree::Node(left, right) = place {
        right_parts.push(right);
        place = left;
    }
    let mut pruned = place.clone();
    for right in right_parts.into_iter().rev() {
        pruned = Tree::node(pruned, Tree::leaf(first_label(right)));
    }
    pruned
}

pub fn outgroup(tree: &Tree) -> Tree {
    match tree {
        Tree::Node(left, right) if is_tip(left) => (**right).clone(),
        _ => tree.clone(),
    }
}

pub fn ladder_0(tree: &Tree) -> Tree {
    let (mut place, mut left_parts) = (tree, Vec::new());
    while let Tree::Node(left, right) = place {
        if !matches!(**left, Tree::Leaf(0)) {
            left_parts.push(left);
        }
        place = right;
    }
    let mut pruned = place.clone();
    for left in left_parts.into_iter().rev() {
        pruned = Tree::node((**left).clone(), pruned);
    }
    pruned
}
