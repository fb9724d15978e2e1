//! Worked programs on trees.

use reference::generate;
use reference::generate::sums::with_moderate_labels;
use reference::machine::known::computed::results;
use reference::machine::known::programs::GROW;
use reference::{Random, Token, Tree};

use super::cases::worked;
use super::computed::check;
use super::*;

fn check_all(lent: &mut Lent, tree: &Tree, behind: &[u8]) {
    for computed in results(tree) {
        check(lent, tree, &computed, behind);
    }
}

#[test]
fn worked_programs_on_random_trees() {
    let mut random = Random::new(240);
    let mut lent = Lent::new();
    for _ in 0..2_000 {
        let tips = 1 + random.below(60);
        let tree = generate::tree(&mut random, tips);
        let length = random.below(4);
        let behind = generate::tag_like_bytes(&mut random, length);
        check_all(&mut lent, &tree, &behind);
    }
}

/// The leaves and nodes of every tree of so many tips, in prefix order; the
/// labels are 0.
fn every_shape(tips: usize) -> Vec<Vec<Token>> {
    if tips == 1 {
        return vec![vec![Token::Leaf(0)]];
    }
    let mut shapes = Vec::new();
    for left_tips in 1..tips {
        for left in every_shape(left_tips) {
            for right in every_shape(tips - left_tips) {
                shapes.push([&[Token::Node], &left[..], &right[..]].concat());
            }
        }
    }
    shapes
}

#[test]
fn worked_programs_on_every_shape_of_up_to_eight_tips() {
    let mut random = Random::new(241);
    let mut lent = Lent::new();
    let mut shapes = 0;
    for tips in 1..=8 {
        for mut shape in every_shape(tips) {
            for token in &mut shape {
                if let Token::Leaf(label) = token {
                    *label = generate::label(&mut random);
                }
            }
            let tree = Tree::from_prefix(&shape).expect("a tree");
            check_all(&mut lent, &tree, &[]);
            shapes += 1;
        }
    }
    assert_eq!(shapes, 1 + 1 + 2 + 5 + 14 + 42 + 132 + 429);
}

/// Halved at every node, and split at random.
#[test]
fn worked_programs_on_trees_of_many_tips() {
    let mut random = Random::new(242);
    let mut lent = Lent::new();
    let tips = 1 << 16;
    check_all(&mut lent, &generate::balanced(&mut random, tips), &[2]);
    check_all(&mut lent, &generate::tree(&mut random, tips), &[]);
}

/// Where the input ends or has no tag, Grow is refused with the number and the
/// position of the tree reader.
#[test]
fn broken_trees_are_refused_where_the_tree_reader_refuses() {
    let mut random = Random::new(243);
    let mut lent = Lent::new();
    let mut seen = [0; 17];
    for _ in 0..10_000 {
        let tips = 1 + random.below(20);
        let tree = generate::tree(&mut random, tips);
        let tokens = with_moderate_labels(&mut random, &tree).tokens();
        let input = generate::damaged(&mut random, &tokens);
        let case = worked(GROW, input, 1_000, 200);
        let ran = lent.call(&case).ran();
        let refused = hogvax::tree(&case.input).err();
        assert_eq!(ran.refused, refused, "{case:?}");
        seen[refused.map_or(0, |refused| refused.number as usize)] += 1;
    }
    let seen = [seen[0], seen[15], seen[16]];
    assert!(seen.iter().all(|&count| count > 500), "{seen:?}");
}
