//! The trees that programs run over, as tokens. Their labels are -999 to 999, so
//! that no sum over them is out of range.

use reference::machine::OPEN_LIMIT;
use reference::{generate, Random, Token, Tree};

/// The tokens of a tree, each label made small.
pub fn small_labels(tree: &Tree) -> Vec<u8> {
    let mut tokens = Vec::new();
    for token in tree.prefix() {
        let token = match token {
            Token::Leaf(label) => Token::Leaf(label % 1_000),
            Token::Node => Token::Node,
        };
        token.write(&mut tokens);
    }
    tokens
}

/// 100 trees of 1,000 tips, of random shapes.
pub fn small_trees() -> Vec<Vec<u8>> {
    let mut random = Random::new(1);
    let trees = (0..100).map(|_| small_labels(&generate::tree(&mut random, 1_000)));
    trees.collect()
}

/// A tree of so many tips, halved at every node.
pub fn balanced(tips: usize) -> Vec<u8> {
    small_labels(&generate::balanced(&mut Random::new(2), tips))
}

/// A caterpillar, leaves on either side, as deep as the open calls allow for a
/// program with so many open where its tree begins.
pub fn deepest_caterpillar(open: usize) -> Vec<u8> {
    let depth = OPEN_LIMIT - open;
    small_labels(&generate::mixed_caterpillar(&mut Random::new(3), depth))
}
