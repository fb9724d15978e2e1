//! Tips, nodes and clades of a tree.

use reference::{Token, Tree};

#[derive(Clone, Copy, PartialEq, Eq)]
pub enum Step {
    Left,
    Right,
}

/// A tip, and the way to it from the root: a step for each node above it.
pub struct Tip {
    pub label: i32,
    pub way: Vec<Step>,
}

impl Tip {
    pub fn depth(&self) -> i32 {
        self.way.len() as i32
    }
}

/// The tips from left to right.
pub fn tips(tree: &Tree) -> Vec<Tip> {
    let mut found = Vec::new();
    add_tips(tree, &mut Vec::new(), &mut found);
    found
}

fn add_tips(tree: &Tree, way: &mut Vec<Step>, found: &mut Vec<Tip>) {
    match tree {
        Tree::Leaf(label) => found.push(Tip {
            label: *label,
            way: way.clone(),
        }),
        Tree::Node(left, right) => {
            for (step, part) in [(Step::Left, left), (Step::Right, right)] {
                way.push(step);
                add_tips(part, way, found);
                way.pop();
            }
        }
    }
}

/// The labels of the tips from left to right.
pub fn labels(tree: &Tree) -> Vec<i32> {
    let label = |token| match token {
        Token::Leaf(label) => Some(label),
        Token::Node => None,
    };
    tree.prefix().filter_map(label).collect()
}

/// All nodes and tips, each with what is below it.
pub fn clades(tree: &Tree) -> Vec<&Tree> {
    let mut found = vec![tree];
    if let Tree::Node(left, right) = tree {
        found.extend(clades(left));
        found.extend(clades(right));
    }
    found
}

/// The left and the right part of every node.
pub fn nodes(tree: &Tree) -> Vec<(&Tree, &Tree)> {
    clades(tree).into_iter().filter_map(parts).collect()
}

fn parts(clade: &Tree) -> Option<(&Tree, &Tree)> {
    match clade {
        Tree::Leaf(_) => None,
        Tree::Node(left, right) => Some((left, right)),
    }
}

/// The clades with so many nodes above them.
pub fn clades_at(tree: &Tree, depth: usize) -> Vec<&Tree> {
    match tree {
        _ if depth == 0 => vec![tree],
        Tree::Leaf(_) => vec![],
        Tree::Node(left, right) => {
            let left = clades_at(left, depth - 1);
            left.into_iter()
                .chain(clades_at(right, depth - 1))
                .collect()
        }
    }
}

pub fn is_tip(tree: &Tree) -> bool {
    matches!(tree, Tree::Leaf(_))
}

/// The exact sum, which a program that ended has found to be in range.
pub fn sum(numbers: impl IntoIterator<Item = i32>) -> i32 {
    let sum: i64 = numbers.into_iter().map(i64::from).sum();
    sum.try_into().expect("a sum in range")
}

/// The same tree with each tip labelled anew.
pub fn labelled(tree: &Tree, label: impl FnMut(&Tip) -> i32) -> Tree {
    let tips = tips(tree);
    let mut labels = tips.iter().map(label);
    let token = |token| match token {
        Token::Leaf(_) => Token::Leaf(labels.next().unwrap()),
        Token::Node => Token::Node,
    };
    let tokens: Vec<Token> = tree.prefix().map(token).collect();
    Tree::from_prefix(&tokens).unwrap()
}

/// The same tree with each clade at this depth made a tip, labelled so.
pub fn replaced(tree: &Tree, depth: usize, label: fn(&Tree) -> i32) -> Tree {
    match tree {
        _ if depth == 0 => Tree::leaf(label(tree)),
        Tree::Leaf(own) => Tree::leaf(*own),
        Tree::Node(left, right) => Tree::node(
            replaced(left, depth - 1, label),
            replaced(right, depth - 1, label),
        ),
    }
}
