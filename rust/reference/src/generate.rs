//! Generators of trees, labels, programs and inputs for tests. Equal seeds
//! give equal results.

use crate::random::Random;
use crate::tree::{Token, Tree};

pub mod bodies;
pub mod code;
pub mod evaluated;
pub mod file_damage;
pub mod order_damage;
pub mod ordered;
pub mod program_shapes;
pub mod programs;
pub mod random_damage;
pub mod record_damage;
pub mod runs;
pub mod sources;
pub mod sums;

pub use bodies::Alphabet;
pub use file_damage::FileDamage;
pub use order_damage::changed_program;
pub use random_damage::{changed_file, damaged_file, damaged_records, resized_file};
pub use record_damage::RecordDamage;
pub use runs::any_run;
pub use sources::any_source;

/// Labels likely to be got wrong: the extremes, those next to them and their
/// halves, which have sums just inside and just outside the range, and labels
/// whose bytes look like tags.
pub const SPECIAL_LABELS: [i32; 14] = [
    0,
    1,
    -1,
    2,
    i32::MIN,
    i32::MAX,
    i32::MIN + 1,
    i32::MAX - 1,
    i32::MIN / 2,
    i32::MAX / 2 + 1,
    0x0101_0101,
    0x0202_0202,
    0x0201_0201,
    0x0102_0102,
];

/// A special label half of the time, any label otherwise.
pub fn label(random: &mut Random) -> i32 {
    if random.below(2) == 0 {
        random.pick(&SPECIAL_LABELS)
    } else {
        random.number()
    }
}

/// A tree with so many tips, at least 1; every split of the tips between
/// the two parts of a node is equally likely.
pub fn tree(random: &mut Random, tips: usize) -> Tree {
    by_splits(random, tips, |random, tips| 1 + random.below(tips - 1))
}

/// A tree with so many tips, at least 1, halved at every node.
pub fn balanced(random: &mut Random, tips: usize) -> Tree {
    by_splits(random, tips, |_, tips| tips / 2)
}

/// The caterpillar of that depth whose right parts are leaves.
pub fn left_caterpillar(random: &mut Random, depth: usize) -> Tree {
    by_splits(random, depth + 1, |_, tips| tips - 1)
}

/// The caterpillar of that depth whose left parts are leaves.
pub fn right_caterpillar(random: &mut Random, depth: usize) -> Tree {
    by_splits(random, depth + 1, |_, _| 1)
}

/// A caterpillar of that depth that goes on to the left or right at random.
pub fn mixed_caterpillar(random: &mut Random, depth: usize) -> Tree {
    by_splits(random, depth + 1, |random, tips| {
        random.pick(&[1, tips - 1])
    })
}

/// A tree with so many tips; `split` says how many of a node's tips, at
/// least 2, go to its left part.
fn by_splits(random: &mut Random, tips: usize, split: fn(&mut Random, usize) -> usize) -> Tree {
    assert!(tips > 0, "a tree has at least one tip");
    let mut tokens = Vec::with_capacity(2 * tips - 1);
    let mut pending = vec![tips];
    while let Some(tips) = pending.pop() {
        if tips == 1 {
            tokens.push(Token::Leaf(label(random)));
        } else {
            let left = split(random, tips);
            tokens.push(Token::Node);
            pending.push(tips - left);
            pending.push(left);
        }
    }
    Tree::from_prefix(&tokens).expect("every split leaves tips on both sides")
}

/// Every shape of `tips` tips, each once, with label 1 at every leaf.
pub fn shapes(tips: usize) -> Vec<Tree> {
    if tips == 1 {
        return vec![Tree::leaf(1)];
    }
    let mut all = Vec::new();
    for left_tips in 1..tips {
        let rights = shapes(tips - left_tips);
        for left in shapes(left_tips) {
            let with_left = |right: &Tree| Tree::node(left.clone(), right.clone());
            all.extend(rights.iter().map(with_left));
        }
    }
    all
}

/// A byte that is often a tag, sometimes nearly one.
pub fn tag_like_byte(random: &mut Random) -> u8 {
    match random.below(16) {
        0 => random.byte(),
        1 => random.pick(&[0, 3, 255]),
        2..=6 => 1,
        _ => 2,
    }
}

/// So many bytes, most of them tags.
pub fn tag_like_bytes(random: &mut Random, length: usize) -> Vec<u8> {
    (0..length).map(|_| tag_like_byte(random)).collect()
}

/// The bytes cut, lengthened, or with one byte changed, taken out or put in.
pub fn damaged(random: &mut Random, bytes: &[u8]) -> Vec<u8> {
    let mut result = bytes.to_vec();
    let place = random.below(bytes.len() + 1);
    match random.below(5) {
        0 => result.truncate(place),
        1 if place < result.len() => result[place] = tag_like_byte(random),
        2 if place < result.len() => drop(result.remove(place)),
        3 => result.insert(place, tag_like_byte(random)),
        _ => {
            let length = random.below(8);
            result.extend(tag_like_bytes(random, length));
        }
    }
    result
}

#[cfg(test)]
mod tests {
    use super::*;

    #[test]
    fn trees_have_the_tips_asked_for() {
        let mut random = Random::new(2);
        for tips in 1..200 {
            assert_eq!(tree(&mut random, tips).tips(), tips);
            assert_eq!(balanced(&mut random, tips).tips(), tips);
        }
    }

    #[test]
    fn caterpillars_have_the_depth_asked_for() {
        let mut random = Random::new(3);
        for depth in 0..100 {
            for make in [left_caterpillar, right_caterpillar, mixed_caterpillar] {
                let tree = make(&mut random, depth);
                assert_eq!(tree.depth(), depth);
                assert_eq!(tree.tips(), depth + 1);
            }
        }
    }

    #[test]
    fn caterpillars_go_to_their_side() {
        let mut random = Random::new(4);
        let left = left_caterpillar(&mut random, 3).tokens();
        assert_eq!(left[..4], [2, 2, 2, 1]);
        let right = right_caterpillar(&mut random, 3).tokens();
        assert_eq!([right[0], right[1], right[6], right[7]], [2, 1, 2, 1]);
    }

    #[test]
    fn a_balanced_tree_is_as_flat_as_can_be() {
        let mut random = Random::new(5);
        for depth in 0..10 {
            assert_eq!(balanced(&mut random, 1 << depth).depth(), depth);
        }
        assert_eq!(balanced(&mut random, 5).depth(), 3);
    }

    #[test]
    fn equal_seeds_give_equal_trees() {
        let one = tree(&mut Random::new(6), 1000);
        let two = tree(&mut Random::new(6), 1000);
        let other = tree(&mut Random::new(7), 1000);
        assert_eq!(one, two);
        assert_ne!(one, other);
    }

    #[test]
    fn every_special_label_comes_up() {
        let mut random = Random::new(8);
        let labels: Vec<i32> = (0..1000).map(|_| label(&mut random)).collect();
        for special in SPECIAL_LABELS {
            assert!(labels.contains(&special));
        }
    }
}
