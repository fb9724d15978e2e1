//! Tips and depth of the tree that is evaluated: as the tree reader gives them where
//! the run ended, and 0 on every refusal, also where the tree was accepted.

use std::collections::BTreeMap;

use reference::generate::sources::any_program_and_tree;
use reference::generate::{balanced, mixed_caterpillar, tag_like_bytes};
use reference::{Token, Tree};

use super::*;

/// A call of function 0.
fn call(tree: u8) -> Expr {
    Expr::call(tree, 0, vec![])
}

/// The file of a program with this function alone.
fn alone(function: Function) -> Vec<u8> {
    file(&Program::new(vec![function]))
}

/// The tree with these tags: `*` for a node, `.` for a leaf.
fn from_tags(tags: &str) -> Tree {
    let token = |tag| match tag {
        '*' => Token::Node,
        _ => Token::Leaf(7),
    };
    let tokens: Vec<Token> = tags.chars().map(token).collect();
    Tree::from_prefix(&tokens).unwrap()
}

/// Trees with their tips and their depth, each known by how it is made. The deepest
/// leaf is the first, the last, neither.
fn trees() -> Vec<(Tree, usize, usize)> {
    let mut random = Random::new(470);
    vec![
        (from_tags("."), 1, 0),
        (from_tags("*.."), 2, 1),
        (from_tags("**..."), 3, 2),
        (from_tags("*.*.."), 3, 2),
        (from_tags("**.*..."), 4, 3),
        (from_tags("*.***...*.."), 6, 4),
        (balanced(&mut random, 1 << 10), 1 << 10, 10),
        (mixed_caterpillar(&mut random, 300), 301, 300),
        (mixed_caterpillar(&mut random, 1_024), 1_025, 1_024),
    ]
}

/// A program for each way to stop after the tree is read, with fuel and output, and
/// the number of the refusal and its position.
fn stopped() -> Vec<(Vec<u8>, u64, usize, u32, u64)> {
    let leaf = || tree_valued(0, Expr::leaf(Expr::constant(9)));
    let largest = Expr::plus(Expr::constant(i32::MAX), Expr::constant(1));
    vec![
        (alone(number_valued(0, Expr::constant(3))), 0, 0, 14, 0),
        (alone(leaf()), 1, 5, 14, 0),
        (alone(leaf()), 2, 4, 17, 0),
        (alone(leaf()), 2, 0, 17, 0),
        (alone(number_valued(0, call(0))), 1_024, 0, 18, 0),
        (alone(tree_valued(0, call(0))), 9_999, 0, 18, 0),
        (alone(number_valued(0, largest)), 3, 0, 21, 2),
    ]
}

/// What stands after a tree: nothing, a leaf, a node, bytes that are no tag.
const AFTER: [&[u8]; 4] = [&[], &[1, 2, 1, 2, 1], &[2, 2, 2], &[0, 9, 9, 9, 9, 9]];

#[test]
fn a_run_that_ended_gives_tips_and_depth_of_its_tree() {
    let mut lent = Lent::new();
    let number = alone(number_valued(0, Expr::constant(-3)));
    // Its result has other tips and another depth than most trees.
    let leaf = || Expr::leaf(Expr::constant(9));
    let cherry = alone(tree_valued(0, Expr::node(leaf(), leaf())));
    for (tree, tips, depth) in trees() {
        for after in AFTER {
            let input = [&tree.tokens()[..], after].concat();
            let measures = [tips as u64, depth as u64];
            let gave = lent.answer(&SourceCase::new(&number, &input, 1, 0));
            assert_eq!(gave.slots[..4], [0, 1, 0, u64::MAX - 2]);
            assert_eq!(gave.slots[4..], measures, "{tree:?}");
            let gave = lent.answer(&SourceCase::new(&cherry, &input, 5, 11));
            assert_eq!(gave.slots[..4], [0, 5, 11, 0]);
            assert_eq!(gave.slots[4..], measures, "{tree:?}");
        }
    }
}

/// N5: "A refusal of the reader or the source run gives 0 for both."
#[test]
fn a_refusal_after_the_tree_is_read_gives_0_for_both() {
    let mut lent = Lent::new();
    for (file, fuel, room, number, position) in stopped() {
        for (tree, ..) in trees() {
            for after in AFTER {
                let input = [&tree.tokens()[..], after].concat();
                assert!(hogvax::tree(&input).is_ok());
                let gave = lent.answer(&SourceCase::new(&file, &input, fuel, room));
                let slots = refused_slots(position, gave.slots[1]);
                assert_eq!((gave.number, gave.slots), (number, slots), "{tree:?}");
            }
        }
    }
}

/// What is to be seen of the runs that ended: that the result's tips or depth, or the
/// input's length, would have given something else.
const OTHERWISE: [&str; 4] = [
    "the result has other tips",
    "the result has another depth",
    "the input is longer",
    "the last leaf is not the deepest",
];

/// What would have been given otherwise for this tree by a wrong run that ended.
fn otherwise(tree: &Tree, input: &[u8], result: &[u8]) -> [bool; 4] {
    let result = reference::tree_measures(result).ok();
    // Its last leaf is the end of the path to the right.
    let (mut rights, mut part) = (0, tree);
    while let Tree::Node(_, right) = part {
        (rights, part) = (rights + 1, right);
    }
    [
        result.is_some_and(|result| result.tips != tree.tips()),
        result.is_some_and(|result| result.depth != tree.depth()),
        (input.len() + 1) / 6 != tree.tips(),
        rights != tree.depth(),
    ]
}

/// Programs and trees made at random, with bytes after the tree, little fuel or a
/// short output. Each refusal is seen where the tree was accepted.
#[test]
fn a_run_passes_on_what_the_tree_reader_gives() {
    let mut random = Random::new(471);
    let (mut lent, mut seen) = (Lent::new(), BTreeMap::new());
    for _ in times(600, 4_000) {
        let (program, tree) = any_program_and_tree(&mut random);
        let length = random.below(12);
        let input = [tree.tokens(), tag_like_bytes(&mut random, length)].concat();
        let fuel = random.pick(&[3, MODERATE, MODERATE, MODERATE]);
        let room = random.pick(&[0, 100_000, 100_000]);
        let gave = lent.answer(&SourceCase::new(&file(&program), &input, fuel, room));
        let [_, _, written, _, tips, depth] = gave.slots;
        if gave.number != 0 {
            assert_eq!([tips, depth], [0, 0], "{program:?}");
            let accepted = hogvax::tree(&input).is_ok();
            let name = format!("refused {}, tree accepted: {accepted}", gave.number);
            *seen.entry(name).or_insert(0) += 1;
            continue;
        }
        let read = hogvax::tree(&input).unwrap();
        assert_eq!([tips, depth], [read.tips as u64, read.depth as u64]);
        assert_eq!((read.tips, read.depth), (tree.tips(), tree.depth()));
        let differs = otherwise(&tree, &input, &gave.output[..written as usize]);
        for (name, differs) in OTHERWISE.iter().zip(differs) {
            *seen.entry((*name).to_owned()).or_insert(0) += usize::from(differs);
        }
    }
    println!("{seen:?}");
    let refusals = [14, 17, 18, 21].map(|number| format!("refused {number}, tree accepted: true"));
    let too_deep = "refused 20, tree accepted: false".to_owned();
    let others = OTHERWISE.map(str::to_owned);
    for name in others.iter().chain(&refusals).chain([&too_deep]) {
        assert!(
            seen.get(name).is_some_and(|&count| count > 3),
            "{name}: {seen:?}"
        );
    }
}
