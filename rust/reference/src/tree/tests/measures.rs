//! N5: "Tips and depth with the tree."

use super::*;
use crate::machine::known::text::bytes;

/// Tokens, tips and depth, by hand; a leaf whose bytes are all 1 is `01*5`.
const BY_HAND: [(&str, usize, usize); 16] = [
    ("01 05 00 00 00", 1, 0),
    ("01 02 02 02 02", 1, 0),
    ("02 01 05 00 00 00 01 07 00 00 00", 2, 1),
    ("02 01 02 02 02 02 01 02 02 02 02", 2, 1),
    ("02 02 01*15", 3, 2),
    ("02 01*5 02 01*10", 3, 2),
    ("02 02 02 01*20", 4, 3),
    ("02 02 01*5 02 01*15", 4, 3),
    ("02 02 01*10 02 01*10", 4, 2),
    ("02 01*5 02 02 01*15", 4, 3),
    ("02 01*5 02 01*5 02 01*10", 4, 3),
    ("02 02 02 02 01*20 02 02 01*10 02 01*10", 8, 4),
    ("02 02 02 01*10 02 01*10 02 02 02 01*20", 8, 4),
    ("02*1024 01*5125", 1_025, 1_024),
    ("02 01*5 02*1023 01*5120", 1_025, 1_024),
    ("02*1024 01*5120 02*1023 01*5120", 2_048, 1_024),
];

/// The tree has these tips and this depth, "An accepted tree's bytes must
/// equal 6 times the tips less 1", and what stands after it is not counted.
fn assert_measured(tokens: &[u8], tips: usize, depth: usize) {
    let bytes = 6 * tips - 1;
    let measures = Measures { bytes, tips, depth };
    assert_eq!(tokens.len(), bytes);
    for after in [&[][..], &[1], &[2], &[3], &[1; 5], &T, &[2; 2_000]] {
        let input = [tokens, after].concat();
        assert_eq!(tree_measures(&input), Ok(measures));
    }
}

#[test]
fn trees_measured_by_hand() {
    for (tokens, tips, depth) in BY_HAND {
        let tokens = bytes(tokens);
        assert_measured(&tokens, tips, depth);
        let (tree, end) = read_tree(&tokens).unwrap();
        assert_eq!(
            (end, tree.tips(), tree.depth()),
            (tokens.len(), tips, depth)
        );
    }
}

#[test]
fn a_lone_leaf_has_depth_0() {
    for label in generate::SPECIAL_LABELS {
        assert_measured(&leaf(label).tokens(), 1, 0);
    }
}

/// As N14 counts them, "5 for four tips, 4,862 for ten". The deepest of n
/// tips, from 2 on, have n - 2 nodes under the first, each at one of two
/// sides.
#[test]
fn all_small_shapes() {
    let counts = [1, 1, 2, 5, 14, 42, 132, 429, 1_430, 4_862];
    for (tips, count) in (1..).zip(counts) {
        let all = generate::shapes(tips);
        assert_eq!(all.len(), count);
        let mut deepest = 0;
        for tree in all {
            assert_eq!(tree.tips(), tips);
            assert_measured(&tree.tokens(), tips, tree.depth());
            deepest += usize::from(tree.depth() == tips - 1);
        }
        assert_eq!(deepest, 1 << tips.saturating_sub(2));
    }
}

#[test]
fn random_trees() {
    let mut random = Random::new(21);
    let many = [1_000, 10_000, 100_000];
    for tips in (1..200).chain(many) {
        for make in [generate::tree, generate::balanced] {
            let tree = make(&mut random, tips);
            assert_measured(&tree.tokens(), tips, tree.depth());
        }
    }
    for depth in 0..17 {
        let tree = generate::balanced(&mut random, 1 << depth);
        assert_measured(&tree.tokens(), 1 << depth, depth);
    }
}

#[test]
fn depth_1024_is_reported() {
    let mut random = Random::new(22);
    for depth in [1, 2, 3, 500, 1_022, 1_023, 1_024] {
        for make in [
            generate::left_caterpillar,
            generate::right_caterpillar,
            generate::mixed_caterpillar,
        ] {
            assert_measured(&make(&mut random, depth).tokens(), depth + 1, depth);
        }
    }
    let tree = generate::mixed_caterpillar(&mut random, 1_025);
    assert_refused(&tree.tokens(), 20, last_node_tag(&tree));
}

/// Two leaves, with `left` nodes about them that have two leaves at the left, and
/// `right` nodes that have two at the right: the left ones are outside, or the right
/// ones.
fn about(left: usize, right: usize, left_outside: bool) -> Tree {
    let two = || node(leaf(1), leaf(2));
    let to_left = |tree| (0..left).fold(tree, |tree, _| node(two(), tree));
    let to_right = |tree| (0..right).fold(tree, |tree, _| node(tree, two()));
    if left_outside {
        to_left(to_right(two()))
    } else {
        to_right(to_left(two()))
    }
}

/// The deepest leaf is the first or the last, or has others on both sides.
#[test]
fn the_deepest_leaf_anywhere() {
    for left in 0..8 {
        for right in 0..8 {
            let nodes = left + right;
            for left_outside in [false, true] {
                let tree = about(left, right, left_outside);
                assert_measured(&tree.tokens(), 2 * nodes + 2, nodes + 1);
            }
        }
    }
    let tree = about(500, 523, false);
    assert_measured(&tree.tokens(), 2_048, 1_024);
}

#[test]
fn trees_millions_deep_are_refused_at_once() {
    for make in [generate::left_caterpillar, generate::right_caterpillar] {
        let tokens = make(&mut Random::new(23), 2_000_000).tokens();
        let refusal = tree_measures(&tokens).unwrap_err();
        assert_eq!(refusal.number, 20);
        assert_refused(&tokens, 20, refusal.position);
    }
}
