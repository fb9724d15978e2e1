//! The ways give the same, so that a comparison means something; the inputs
//! are what they should be, and the tables and the picture are made.

mod memory;
mod picture;
mod tables;

use reference::{read_tree, Random, Token};

use super::*;
use crate::times::measure;
use crate::ways::{with_ready, Given};

/// What each way gives for a tree, with its output.
fn gone(program: &Program, input: &[u8], tips: usize) -> [(Given, Vec<u8>); 3] {
    with_ready(program, WAYS, |ready| {
        ready.map(|mut way| {
            let mut output = vec![9; inputs::result_length(program, tips)];
            (way.go(input, &mut output), output)
        })
    })
}

/// The labels of a tree, in order.
fn labels(tokens: &[u8]) -> Vec<i32> {
    let (tree, end) = read_tree(tokens).expect("one tree");
    assert_eq!(end, tokens.len());
    let label = |token| match token {
        Token::Leaf(label) => Some(label),
        Token::Node => None,
    };
    tree.prefix().filter_map(label).collect()
}

#[test]
fn all_ways_give_the_same_output_and_number() {
    let [grow, sum] = inputs::programs();
    for tips in (1..=64).chain([1_000, 10_000]) {
        let input = inputs::input(tips);
        let [run, plain, trees] = gone(&grow, &input, tips);
        assert!(run == plain && run == trees, "{tips} tips");
        let (given, output) = run;
        assert_eq!((given.written, given.number), (input.len(), 0));
        let grown = labels(&input).into_iter().map(|label| label + 1);
        assert_eq!(labels(&output), grown.collect::<Vec<i32>>());

        let [run, plain, trees] = gone(&sum, &input, tips);
        assert!(run == plain && run == trees, "{tips} tips");
        let number = labels(&input).into_iter().sum();
        let given = Given { written: 0, number };
        assert_eq!(run, (given, vec![]));
    }
}

/// The nodes above the deepest leaf, where every node keeps as few tips as it
/// may from one part.
fn greatest_depth(mut tips: usize) -> usize {
    let mut depth = 0;
    while tips > 1 {
        tips -= (tips / 4).max(1);
        depth += 1;
    }
    depth
}

#[test]
fn the_input_is_one_tree_of_the_tips_asked_for() {
    for tips in (1..=300).chain([inputs::tips(1)]) {
        let tokens = inputs::input(tips);
        assert_eq!(tokens.len(), inputs::length(tips));
        assert_eq!(tokens.capacity(), tokens.len());
        let (tree, end) = read_tree(&tokens).expect("a tree");
        assert_eq!((tree.tips(), end), (tips, tokens.len()));
        assert!(tree.depth() <= greatest_depth(tips), "{tips} tips");
    }
    let largest = MEGABYTES.map(inputs::tips)[MEGABYTES.len() - 1];
    assert!(greatest_depth(largest) < 70);
    assert!(32 * largest < 1 << 31);
}

#[test]
fn the_inputs_are_as_long_as_trees_can_be() {
    for megabytes in MEGABYTES {
        let tips = inputs::tips(megabytes);
        let most = megabytes * 1_000_000;
        assert!(inputs::length(tips) <= most && most < inputs::length(tips + 1));
    }
}

/// Shapes and labels differ from seed to seed and are the same for one.
#[test]
fn either_part_of_a_node_may_be_the_larger() {
    let trees: Vec<Vec<u8>> = (0..100)
        .map(|seed| inputs::tree(&mut Random::new(seed), 3))
        .collect();
    let leaf_first = trees.iter().filter(|tokens| tokens[1] == 1).count();
    assert!(0 < leaf_first && leaf_first < trees.len());
    let all: Vec<i32> = trees.iter().flat_map(|tokens| labels(tokens)).collect();
    assert!(all.iter().any(|&label| label < 0) && all.iter().any(|&label| label > 0));
    assert_eq!(trees[7], inputs::tree(&mut Random::new(7), 3));
    assert_ne!(trees[7], trees[8]);
}

#[test]
fn only_the_ways_that_are_taken_are_measured() {
    for program in inputs::programs() {
        for taken in [[true; 3], [true, true, false], [false; 3]] {
            let timed = measure(&program, 500, 2, taken);
            assert_eq!(timed.seconds.map(|took| took.is_some()), taken);
            assert_eq!(timed.ratios.map(|ratio| ratio.is_some()), taken);
            let numbers = timed.seconds.iter().chain(&timed.ratios).flatten();
            assert!(numbers.into_iter().all(|&number| number > 0.0));
            assert!(!taken[0] || timed.ratios[0] == Some(1.0));
        }
    }
}

#[test]
fn longer_inputs_have_no_more_rounds_and_an_odd_number() {
    let rounds = MEGABYTES.map(times::rounds);
    assert!(rounds.is_sorted_by(|shorter, longer| shorter >= longer));
    assert!(rounds.iter().all(|rounds| rounds % 2 == 1));
}

fn words(words: &[&str]) -> Vec<OsString> {
    words.iter().map(OsString::from).collect()
}

#[test]
fn the_words_ask_for_a_file_or_for_nothing() {
    let Some(Asked::Everything(file)) = asked(&[]) else {
        panic!("no words ask for everything");
    };
    assert!(file.ends_with("docs/benchmarks.svg"));
    let Some(Asked::Everything(file)) = asked(&words(&["some.svg"])) else {
        panic!("a file asks for everything");
    };
    assert_eq!(file, Path::new("some.svg"));
    for wrong in [
        &["-x"][..],
        &["--memory"],
        &["a", "b"],
        &["a", "b", "c", "d"],
    ] {
        assert!(asked(&words(wrong)).is_none(), "{wrong:?}");
    }
}

#[test]
fn the_benchmark_understands_what_it_tells_itself() {
    for way in WAYS {
        for program in inputs::programs() {
            for megabytes in MEGABYTES.map(|megabytes| megabytes.to_string()) {
                let told = ["--memory", way.word(), program.name, &megabytes];
                let Some(Asked::Memory(its_way, its_program, its_megabytes)) = asked(&words(&told))
                else {
                    panic!("{told:?}");
                };
                assert_eq!(its_way, way);
                assert_eq!(its_program.file, program.file);
                assert_eq!(its_megabytes.to_string(), megabytes);
            }
        }
    }
    for wrong in [
        ["ran", "Grow", "1"],
        ["run", "grow", "1"],
        ["run", "Grow", "3"],
    ] {
        assert!(asked(&words(&[&["--memory"][..], &wrong].concat())).is_none());
    }
}
