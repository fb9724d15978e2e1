//! Newick text and drawings: from tokens to text and back.

mod damaged;
mod deep;
mod drawings;
mod dressed;
mod grammar;
mod known;
mod picture;
mod printed;
mod read_back;
mod refused;

use reference::{generate, Random, Tree};

/// A tree as Newick text, without its `;`. It recurs on the tree.
fn text(tree: &Tree) -> String {
    match tree {
        Tree::Leaf(label) => label.to_string(),
        Tree::Node(left, right) => format!("({},{})", text(left), text(right)),
    }
}

/// So many small trees.
fn small_trees(random: &mut Random, count: usize) -> Vec<Tree> {
    let tree = |_| {
        let tips = 1 + random.below(12);
        generate::tree(random, tips)
    };
    (0..count).map(tree).collect()
}

/// The tokens of trees, back to back.
fn tokens(trees: &[Tree]) -> Vec<u8> {
    trees.iter().flat_map(Tree::tokens).collect()
}

type Caterpillar = fn(&mut Random, usize) -> Tree;

const CATERPILLARS: [Caterpillar; 3] = [
    generate::left_caterpillar,
    generate::right_caterpillar,
    generate::mixed_caterpillar,
];

/// The first bytes of a text, for a message.
fn shown(text: &[u8]) -> String {
    String::from_utf8_lossy(&text[..text.len().min(300)]).into_owned()
}
