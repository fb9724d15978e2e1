//! `tree`.

use super::*;

/// What is said of T.
const TREE_T: &str = "tree 11 tips 2 depth 1\n";

#[test]
fn tree_prints_the_measures_of_the_samples() {
    assert_says(&run(&["tree", &sample("small.tokens")]), 0, TREE_T);
    let clades = "tree 53 tips 9 depth 5\n";
    assert_says(&run(&["tree", &sample("clades.tokens")]), 0, clades);
}

/// Trees whose deepest tip is the first, the last, or neither; `(` is a fork.
#[test]
fn tree_prints_tips_and_depth() {
    for (newick, line) in [
        ("7;", "tree 5 tips 1 depth 0\n"),
        ("((1,2),3);", "tree 17 tips 3 depth 2\n"),
        ("(1,(2,3));", "tree 17 tips 3 depth 2\n"),
        ("((1,2),(3,4));", "tree 23 tips 4 depth 2\n"),
        ("((1,(2,3)),4);", "tree 23 tips 4 depth 3\n"),
        ("(1,((2,3),4));", "tree 23 tips 4 depth 3\n"),
        ("(((1,2),(3,(4,5))),(6,7));", "tree 41 tips 7 depth 4\n"),
    ] {
        let tokens = run_on(&["tokens"], newick.as_bytes()).stdout;
        assert_says(&run_on(&["tree"], &tokens), 0, line);
        let longer = [&tokens[..], &tokens[..], &[2, 2, 2]].concat();
        assert_says(&run_on(&["tree"], &longer), 0, line);
    }
}

#[test]
fn tree_reads_standard_input() {
    assert_says(&run_on(&["tree"], &T), 0, TREE_T);
    assert_says(&run_on(&["tree", "-"], &T), 0, TREE_T);
    assert_says(&run(&["tree"]), 1, "refused 15 0\n");
}

#[test]
fn tree_prints_refusals() {
    let deep = [2; 1_025];
    for (input, line) in [
        (&[][..], "refused 15 0\n"),
        (&[1, 5, 0, 0], "refused 15 1\n"),
        (&[3], "refused 16 0\n"),
        (&T[..6], "refused 15 6\n"),
        (&deep, "refused 20 1024\n"),
    ] {
        assert_says(&run_on(&["tree"], input), 1, line);
    }
}

#[test]
fn tree_reads_large_inputs() {
    let mut input = vec![3; 20_000_000];
    input[..T.len()].copy_from_slice(&T);
    assert_says(&run_on(&["tree"], &input), 0, TREE_T);
}

/// The tree is longer than what is read of it at first.
#[test]
fn tree_reads_long_trees() {
    let tree = (0..19).fold(vec![1, 5, 0, 0, 0], |tree, _| {
        [&[2], &tree[..], &tree[..]].concat()
    });
    let length = 6 * (1 << 19) - 1;
    assert_eq!(tree.len(), length);
    let answer = format!("tree {length} tips 524288 depth 19\n");
    assert_says(&run_on(&["tree"], &tree), 0, &answer);
    let longer = [&tree[..], &[3; 3]].concat();
    assert_says(&run_on(&["tree"], &longer), 0, &answer);
    let (short, position) = (&tree[..length - 1], length - 4);
    let refused = format!("refused 15 {position}\n");
    assert_says(&run_on(&["tree"], short), 1, &refused);
}
