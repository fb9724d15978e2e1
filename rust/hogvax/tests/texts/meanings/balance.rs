//! The programs `balance-..`.

use reference::Tree;

use super::parts::{is_tip, nodes, tips};

pub fn sackin(tree: &Tree) -> i32 {
    tips(tree).iter().map(|tip| tip.depth()).sum()
}

pub fn cherries(tree: &Tree) -> i32 {
    let nodes = nodes(tree);
    let cherries = nodes
        .iter()
        .filter(|(left, right)| is_tip(left) && is_tip(right));
    cherries.count() as i32
}

pub fn pitchforks(tree: &Tree) -> i32 {
    let nodes = nodes(tree);
    let three = nodes
        .iter()
        .filter(|(left, right)| left.tips() + right.tips() == 3);
    three.count() as i32
}

fn difference(left: &Tree, right: &Tree) -> i32 {
    left.tips() as i32 - right.tips() as i32
}

pub fn root(tree: &Tree) -> i32 {
    match tree {
        Tree::Leaf(_) => 0,
        Tree::Node(left, right) => difference(left, right),
    }
}

pub fn lean(tree: &Tree) -> i32 {
    let nodes = nodes(tree);
    nodes
        .iter()
        .map(|(left, right)| difference(left, right))
        .sum()
}

pub fn caterpillar(tree: &Tree) -> i32 {
    let nodes = nodes(tree);
    let every = nodes
        .iter()
        .all(|(left, right)| is_tip(left) || is_tip(right));
    i32::from(every)
}

pub fn level(tree: &Tree) -> i32 {
    let tips = tips(tree);
    let depth = tips[0].depth();
    match tips.iter().all(|tip| tip.depth() == depth) {
        true => depth,
        false => -1,
    }
}
