//! Trees that stand one after the other, and trees deeper than the tree
//! reader reads.

use reference::generate::sums::with_moderate_labels;
use reference::generate::{self, left_caterpillar, mixed_caterpillar, right_caterpillar};
use reference::{evaluate, Evaluation, Random, Tree};

use super::programs::{samples, six_levels_a_call};
use super::*;

/// So many trees in one buffer.
const TREES: usize = 1_000;

/// What a program means on a tree, on which no sum is out of range: the bytes of
/// its result, its number, and the units of its run.
fn meant(program: &Program, tree: &Tree) -> (Vec<u8>, i32, u64) {
    match evaluate(program, tree, 1_024, u64::MAX) {
        Evaluation::Ended(ended) => (ended.value.bytes(), ended.value.number(), ended.units + 1),
        other => panic!("{tree:?}: {other:?}"),
    }
}

/// Each run begins where the last one ended. What it gives is what the program
/// means on that tree alone; after the last there is no tree.
fn run_through(lent: &mut Lent, program: &Program, trees: &[Tree]) {
    let file = file(program);
    let input: Vec<u8> = trees.iter().flat_map(Tree::tokens).collect();
    let mut place = 0;
    for tree in trees {
        let (bytes, number, units) = meant(program, tree);
        let rest = &input[place..];
        let case = RunCase::new(&file, rest, u64::MAX, bytes.len() + 3, LONGEST_CODE);
        let (ran, output) = lent.run(&case);
        assert_eq!(ran.refused, None, "{tree:?}");
        assert_eq!((ran.units, ran.number), (units, number), "{tree:?}");
        assert_eq!(ran.read, tree.tokens().len(), "{tree:?}");
        assert!(output[..ran.written] == bytes, "{tree:?}");
        assert_eq!(output[ran.written..], [FILLER; 3], "{tree:?}");
        place += ran.read;
    }
    assert_eq!(place, input.len());
    let ran = hogvax::run(&file, &[], u64::MAX, &mut [0; 9]);
    assert_eq!(ran.refused.map(|refused| refused.number), Some(15));
}

#[test]
fn a_thousand_trees_one_after_the_other() {
    let mut random = Random::new(340);
    let mut lent = Lent::new();
    let mut tree = || {
        let tips = 1 + random.below(30);
        let tree = generate::tree(&mut random, tips);
        with_moderate_labels(&mut random, &tree)
    };
    let trees: Vec<Tree> = (0..TREES).map(|_| tree()).collect();
    for program in samples() {
        run_through(&mut lent, &program, &trees);
    }
}

/// Demand 3 is of "any tree's tokens", those that the tree reader refuses with
/// 20 among them.
#[test]
fn trees_deeper_than_the_tree_reader_reads() {
    let mut random = Random::new(341);
    let mut lent = Lent::new();
    let program = six_levels_a_call();
    for make in [left_caterpillar, right_caterpillar, mixed_caterpillar] {
        for depth in [1_024, 1_025, 2_000, 6_000] {
            let tree = make(&mut random, depth);
            let deep = hogvax::tree(&tree.tokens()).is_err();
            assert_eq!(deep, depth > 1_024);
            run_through(&mut lent, &program, &[tree]);
        }
    }
}
