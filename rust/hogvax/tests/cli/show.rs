//! `show`.

use hogvax::assembly::{self, Numbers};

use super::texts::{explained, GROW};
use super::*;

/// The text of Grow, with numbers.
const SHOWN: &str = "\
# record 0: edition 1, 1 function, 8 nodes
1  function 0 takes tree 0 gives tree
2    Case 0  # leaf part: number 0; node part: trees 1, 2
3      Leaf
4        Add
5          Var 0
6          Const 1
7      Node
8        Call 0 on 1
9        Call 0 on 2
";

/// The same without.
const BARE: &str = "\
function 0 takes tree 0 gives tree
  Case 0  # leaf part: number 0; node part: trees 1, 2
    Leaf
      Add
        Var 0
        Const 1
    Node
      Call 0 on 1
      Call 0 on 2
";

#[test]
fn show_prints_a_program_file() {
    let grow = sample("programs/grow.program");
    assert_says(&run(&["show", &grow]), 0, SHOWN);
    assert_says(&run(&["show", &grow, "--bare"]), 0, BARE);
    assert_says(&run(&["show", "--bare", &grow]), 0, BARE);
    let input = bytes("programs/grow.program");
    for words in [&["show"][..], &["show", "-"]] {
        assert_says(&run_on(words, &input), 0, SHOWN);
    }
    assert_says(&run(&["show"]), 1, "refused 1 0\n");
}

/// Numbered and indented anew, its own comments left out.
#[test]
fn show_prints_a_text() {
    let flat = GROW.replace("  ", "").replace("\n", "  # comment\r\n");
    for text in [GROW, SHOWN, BARE, &flat] {
        assert_says(&run_on(&["show"], text.as_bytes()), 0, SHOWN);
        assert_says(&run_on(&["show", "--bare"], text.as_bytes()), 0, BARE);
    }
}

#[test]
fn show_prints_what_the_library_shows() {
    let mut random = reference::Random::new(341);
    let mut refused = 0;
    for _ in 0..30 {
        let program = reference::generate::programs::any_program(&mut random);
        let file = lay_out(&program.records());
        refused += usize::from(hogvax::check(&file).is_err());
        let text = assembly::show(&file, Numbers::Shown).unwrap();
        assert_says(&run_on(&["show"], &file), 0, &text);
    }
    assert!(refused > 10, "{refused}");
}

#[test]
fn show_refuses_what_is_no_program_file() {
    let (file, records) = (
        bytes("programs/grow.program"),
        bytes("programs/grow.records"),
    );
    for (input, line) in [
        (vec![0; 511], "refused 1 0\n"),
        (with(&file, 20, 9), "refused 2 0\n"),
        (reference::lay_out_runs(&[&[]]), "refused 3 0\n"),
        (lay_out(&with(&records, 0, 2)), "refused 4 0\n"),
        (lay_out(&with(&records, 8, 2)), "refused 5 1\n"),
        (lay_out(&with(&records, 16, 9)), "refused 6 2\n"),
        (lay_out(&with(&records, 16, 5)), "refused 7 2\n"),
    ] {
        assert_says(&run_on(&["show"], &input), 1, line);
    }
}

#[test]
fn show_refuses_texts_of_no_program() {
    let text = "function 0 takes tree 0 gives tree\n  Add\n    Var 0\n";
    let output = run_on(&["show"], text.as_bytes());
    let told = explained("standard input", text, "refused 7 2\n");
    assert_gives(&output, 1, b"refused 7 2\n", &told);
    let output = run_on(
        &["show"],
        b"function 0 takes tree 0 gives tree\n  Add Var 0\n",
    );
    let line = "refused standard input:2:7: record 2: 'Var' is too much; \
        Add stands alone, and its parts follow on lines of their own\n";
    assert_says(&output, 1, line);
}

#[test]
fn other_words_are_wrong_usage() {
    for words in [
        &["a", "b"][..],
        &["--bare", "--bare"],
        &["--out", "a"],
        &["-b"],
    ] {
        let message = trouble(run(&[&["show"], words].concat()));
        assert_eq!(message, "hogvax: usage: hogvax show [FILE] [--bare]\n");
    }
}
