//! `newick`.

use reference::{generate, Random};

use super::*;

#[test]
fn newick_prints_the_samples() {
    let small = sample("small.tokens");
    assert_says(&run(&["newick", &small]), 0, "(5,7);\n");
    let clades = "((1,(2,(3,(4,5)))),((6,7),(8,9)));\n";
    assert_says(&run(&["newick", &sample("clades.tokens")]), 0, clades);
}

#[test]
fn newick_reads_standard_input() {
    assert_says(&run_on(&["newick"], &T), 0, "(5,7);\n");
    assert_says(&run_on(&["newick", "-"], &T), 0, "(5,7);\n");
}

#[test]
fn newick_prints_a_line_for_each_tree() {
    let leaf = [1, 251, 255, 255, 255];
    assert_says(&run(&["newick"]), 0, "");
    assert_says(&run_on(&["newick"], &leaf), 0, "-5;\n");
    let three = [&T[..], &leaf, &T].concat();
    assert_says(&run_on(&["newick"], &three), 0, "(5,7);\n-5;\n(5,7);\n");
}

/// No tree is printed, those before the refused one neither.
#[test]
fn newick_prints_refusals_alone() {
    for (input, line) in [
        (&[3][..], "refused 16 0\n"),
        (&[1, 5, 0, 0], "refused 15 1\n"),
        (&T[..6], "refused 15 6\n"),
        (&[2; 1_025], "refused 20 1024\n"),
    ] {
        assert_says(&run_on(&["newick"], input), 1, line);
    }
    for (behind, line) in [
        (&[3][..], "refused 16 22\n"),
        (&[2], "refused 15 23\n"),
        (&[2; 2_000], "refused 20 1046\n"),
    ] {
        let input = [&T, &T, behind].concat();
        assert_says(&run_on(&["newick"], &input), 1, line);
    }
}

/// Short and long trees, more than are read at once.
#[test]
fn newick_reads_large_inputs() {
    let mut random = Random::new(451);
    let mut input = Vec::new();
    for tips in [1, 2, 100_000, 1, 300_000, 50_000, 7] {
        input.extend(T.repeat(9_999));
        input.extend(generate::balanced(&mut random, tips).tokens());
    }
    assert!(input.len() > 3 << 20);
    let text = hogvax::newick::print(&input).unwrap();
    assert_says(&run_on(&["newick"], &input), 0, &text);
    let end = input.len();
    for (byte, line) in [
        (2, format!("refused 15 {}\n", end + 1)),
        (9, format!("refused 16 {end}\n")),
    ] {
        input.truncate(end);
        input.push(byte);
        assert_says(&run_on(&["newick"], &input), 1, &line);
    }
}

#[test]
fn newick_takes_a_file_and_nothing_else() {
    let usage = "hogvax: usage: hogvax newick [FILE]\n";
    for words in [&["a", "b"][..], &["--out", "a"], &["--fast"], &["a", "-x"]] {
        let message = trouble(run(&[&["newick"], words].concat()));
        assert_eq!(message, usage);
    }
}
