//! Known texts that are read.

use hogvax::newick::read;
use reference::Tree;

/// The tokens of `(5,7)`.
fn two_tips() -> Vec<u8> {
    Tree::node(Tree::leaf(5), Tree::leaf(7)).tokens()
}

/// The text is the tree `(5,7)`, and so much is skipped.
#[track_caller]
fn assert_two_tips(text: &str, lengths: usize, names: usize) {
    let read = read(text.as_bytes()).unwrap_or_else(|fault| panic!("{text}: {fault}"));
    assert_eq!(read.tokens, two_tips(), "{text}");
    assert_eq!((read.trees, read.lengths, read.names), (1, lengths, names));
}

#[test]
fn whitespace_may_stand_between_items() {
    assert_two_tips("(5,7);", 0, 0);
    assert_two_tips("\n ( 5\t,\r\n7 ) ;\n", 0, 0);
    assert_two_tips("(\n5\n,\n7\n)\nroot\n:\n1\n;", 1, 1);
}

/// It has no column of its own, and stands nowhere else.
#[test]
fn a_byte_order_mark_at_the_start_is_skipped() {
    assert_two_tips("\u{feff}(5,7);", 0, 0);
    for (text, told) in [
        ("\u{feff})", "1:1: no '(' for this ')'"),
        (
            "\u{feff}\u{feff}5;",
            "1:1: the tip '\\u{feff}5' is not a whole number",
        ),
    ] {
        assert_eq!(read(text.as_bytes()).unwrap_err().to_string(), told);
    }
}

#[test]
fn comments_may_stand_between_items() {
    assert_two_tips("[a](5,7);[b]", 0, 0);
    assert_two_tips("[&R] ([1]5[2],[3]7[4])[5];", 0, 0);
    assert_two_tips("(5[&x={1,2}]:[a]1[b],7[[c]d])[e]f[g]:[h]2[i];", 2, 1);
    assert_two_tips("(5,7)[;\n];", 0, 0);
    assert_two_tips("(5,7)[it's open];", 0, 0);
}

#[test]
fn lengths_are_skipped_after_tips_forks_and_the_root() {
    assert_two_tips("(5:0.1,7);", 1, 0);
    assert_two_tips("(5,7:0.1);", 1, 0);
    assert_two_tips("(5,7):0.1;", 1, 0);
    assert_two_tips("(5:-1,7:+.5):1.e-10;", 3, 0);
    let read = read(b"((1,2):1,(3,4):2):3;5:6;").unwrap();
    assert_eq!((read.trees, read.lengths, read.names), (2, 4, 0));
}

#[test]
fn names_of_forks_are_skipped() {
    assert_two_tips("(5,7)95;", 0, 1);
    assert_two_tips("(5,7) 0.95:1;", 1, 1);
    assert_two_tips(
        "(5,7)'a name; with (signs), ''quotes'' and [brackets]':1;",
        1,
        1,
    );
    assert_two_tips("(5,7)'';", 0, 1);
    let read = read(b"((1,2)a,(3,4)'b')c;").unwrap();
    assert_eq!((read.trees, read.lengths, read.names), (1, 0, 3));
}

#[test]
fn tips_may_stand_in_quotes() {
    assert_two_tips("('5','7');", 0, 0);
    assert_two_tips("('+5','007');", 0, 0);
}

/// One tip, and its label.
#[track_caller]
fn assert_label(text: &str, label: i32) {
    let tokens = Tree::leaf(label).tokens();
    let read = read(text.as_bytes()).map(|trees| trees.tokens);
    assert_eq!(read, Ok(tokens), "{text}");
}

#[test]
fn labels_have_32_bits_and_a_sign() {
    for (text, label) in [
        ("0;", 0),
        ("-0;", 0),
        ("+0;", 0),
        ("5;", 5),
        ("+5;", 5),
        ("-5;", -5),
        ("0005;", 5),
        ("-0005;", -5),
        ("2147483647;", i32::MAX),
        ("+2147483647;", i32::MAX),
        ("-2147483648;", i32::MIN),
        ("'-2147483648';", i32::MIN),
        ("000000000002147483647;", i32::MAX),
    ] {
        assert_label(text, label);
    }
    // However many zeros there are.
    let zeros = "0".repeat(1_000_000);
    assert_label(&format!("-{zeros}7;"), -7);
}

#[test]
fn trees_follow_one_another() {
    let read = read(b"1;2;\n(3,4);[a]5 ;").unwrap();
    let trees = [
        Tree::leaf(1),
        Tree::leaf(2),
        Tree::node(Tree::leaf(3), Tree::leaf(4)),
        Tree::leaf(5),
    ];
    assert_eq!(read.trees, 4);
    assert_eq!(read.tokens, super::tokens(&trees));
}
