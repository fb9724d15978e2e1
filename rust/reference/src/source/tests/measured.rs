//! N5: "The source run's answer passes both on", tips and depth.

use super::*;
use crate::generate;
use crate::order::known::text::program;
use crate::random::Random;
use crate::translate::known as translate;
use crate::tree::{tree_measures, Tree};

/// "A refusal of the reader or the source run gives 0 for both."
const REFUSED: (usize, usize) = (0, 0);

/// Document 01's T.
const T: [u8; 11] = [2, 1, 5, 0, 0, 0, 1, 7, 0, 0, 0];

const GROW: &str = "tree: Case 0, Leaf, Add, Var 0, Const 1, Node, Call 0 on 1, Call 0 on 2";

fn measured(sourced: Sourced) -> (usize, usize) {
    (sourced.tips, sourced.depth)
}

/// Tips and depth of each known run that ends, nothing for one that is
/// refused; some of these have trees of depth 1,024 that the reader accepts.
#[test]
fn known_runs_tell_tips_and_depth_where_they_end() {
    let mut accepted = BTreeSet::new();
    let mut after = 0;
    for known in known::all() {
        let measures = tree_measures(&known.case.input);
        let Some(refusal) = known.answer.refused else {
            let measures = measures.expect("a tree");
            let (tips, depth) = measured(known.answer);
            assert_eq!((tips, depth), (measures.tips, measures.depth));
            assert_eq!(measures.bytes, 6 * tips - 1);
            after += usize::from(measures.bytes < known.case.input.len());
            continue;
        };
        assert_eq!(measured(known.answer), REFUSED, "{}", known.name);
        if measures.is_ok_and(|measures| measures.depth == 1_024) {
            accepted.insert(refusal.number);
        }
    }
    assert_eq!(accepted, BTreeSet::from([14, 17, 18, 21]));
    assert!(after >= 5, "{after}");
}

/// 1 to 10, with all that a run needs, and a tree that would be read.
#[test]
fn refused_files_give_0_for_both() {
    let files = translate::all().into_iter();
    let files = files.filter_map(|known| Some((known.file, known.answer.err()?)));
    let programs = order::all().into_iter().filter_map(|known| {
        let refusal = known.answer.err()?;
        Some((lay_out(&known.program.records()), refusal))
    });
    let mut seen = BTreeSet::new();
    for (file, refusal) in files.chain(programs) {
        if refusal.number > 10 {
            continue;
        }
        let (sourced, _) = SourceCase::new(&file, &T, u64::MAX, 100).perform();
        assert_eq!(sourced.refused, Some(refusal));
        assert_eq!(measured(sourced), REFUSED);
        seen.insert(refusal.number);
    }
    assert_eq!(seen, (1..=10).collect());
}

/// Grow on a tree, followed by other bytes, with every fuel and every output
/// up to those with which it ends. A leaf begins 5 expressions, a node 4.
fn grow_ends_only_with_all(tree: &Tree, after: &[u8]) {
    let file = lay_out(&program(GROW).records());
    let tokens = tree.tokens();
    let input = [&tokens[..], after].concat();
    let (length, tips, depth) = (tokens.len(), tree.tips(), tree.depth());
    let begun = (5 * tips + 4 * (tips - 1)) as u64;
    let run = |fuel, output| SourceCase::new(&file, &input, fuel, output).perform().0;
    for fuel in 0..begun {
        let sourced = run(fuel, length);
        assert_eq!(sourced.refused.map(|refusal| refusal.number), Some(14));
        assert_eq!(measured(sourced), REFUSED);
    }
    for output in 0..length {
        let sourced = run(begun, output);
        assert_eq!(sourced.refused.map(|refusal| refusal.number), Some(17));
        assert_eq!(measured(sourced), REFUSED);
    }
    let sourced = run(begun, length);
    assert_eq!(sourced.refused, None);
    assert_eq!(measured(sourced), (tips, depth));
}

#[test]
fn every_fuel_and_every_output() {
    let leaf = || Tree::leaf(5);
    let two = || Tree::node(leaf(), leaf());
    for after in [&[][..], &[1], &[3], &T] {
        grow_ends_only_with_all(&leaf(), after);
        grow_ends_only_with_all(&two(), after);
        grow_ends_only_with_all(&Tree::node(two(), leaf()), after);
        grow_ends_only_with_all(&Tree::node(leaf(), Tree::node(two(), leaf())), after);
    }
}

/// Of the tree alone, whatever follows it: bytes, or another tree.
#[test]
fn tips_and_depth_of_the_tree_alone() {
    let mut random = Random::new(431);
    let file = lay_out(&program("number: Const 3").records());
    for tips in (1..100).chain([1_000, 20_000]) {
        let tree = generate::tree(&mut random, tips);
        let other = generate::tree(&mut random, 2 * tips).tokens();
        let bytes = generate::tag_like_bytes(&mut random, 20);
        for after in [&[][..], &bytes, &other] {
            let input = [&tree.tokens(), after].concat();
            let (sourced, _) = SourceCase::new(&file, &input, 1, 0).perform();
            assert_eq!(sourced.refused, None);
            assert_eq!(measured(sourced), (tips, tree.depth()));
        }
    }
}

/// The reader's refusals after any whole leaves and nodes of a tree.
#[test]
fn refused_trees_give_0_for_both() {
    let nexts: [(&[u8], u8); 4] = [(&[], 15), (&[1, 5, 0], 15), (&[0], 16), (&[2; 1_025], 20)];
    let file = lay_out(&program("number: Const 3").records());
    let tree = generate::tree(&mut Random::new(432), 20);
    let mut before = Vec::new();
    for token in tree.prefix() {
        for (next, number) in nexts {
            let input = [&before[..], next].concat();
            let (sourced, _) = SourceCase::new(&file, &input, 1, 0).perform();
            assert_eq!(sourced.refused.map(|refusal| refusal.number), Some(number));
            assert_eq!(measured(sourced), REFUSED);
        }
        token.write(&mut before);
    }
}
