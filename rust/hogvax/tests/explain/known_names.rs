//! Known explanations of names, types and words: refusals 8 to 10.

use super::*;

// Names

#[test]
fn a_record_that_binds_the_name_elsewhere_is_told() {
    let expected = "\
refused 9 4: number 0 is not bound here
  no number is bound here
  'Case 0' binds number 0 in its leaf part only (line 2)
";
    assert_eq!(
        told_of(&function("number", "Case 0, Const 1, Var 0")),
        expected
    );
    let expected = "\
refused 9 3: tree 1 is not bound here
  tree 0 is bound here
  tree 0: the tree parameter of function 0 (line 1)
  'Case 0' binds trees 1 and 2 in its node part only (line 2)
";
    let text = function("number", "Case 0, Call 0 on 1, Const 1");
    assert_eq!(told_of(&text), expected);
    let expected = "\
refused 9 3: number 0 is not bound here
  no number is bound here
  'Let' binds number 0 in its body only (line 2)
";
    assert_eq!(
        told_of(&function("number", "Let, Var 0, Const 1")),
        expected
    );
}

#[test]
fn what_binds_the_names_is_told() {
    let expected = "\
refused 9 5: tree 3 is not bound here
  trees 0 to 2 are bound here
  tree 0: the tree parameter of function 0 (line 1)
  trees 1 and 2: the left and right tree of tree 0, by 'Case 0' (line 2)
";
    let text = function("number", "Case 0, Const 1, Let, Call 0 on 3, Call 0 on 2");
    assert_eq!(told_of(&text), expected);
    let expected = "\
refused 9 8: number 4 is not bound here
  numbers 0 to 3 are bound here
  numbers 0 and 1: the number parameters of function 1 (line 3)
  number 2: the number of 'Let' (line 4)
  number 3: the label of tree 0, by 'Case 0' (line 6)
";
    let parameters = "function 1 takes tree 0, number 0, number 1 gives number\n";
    let body = "Let\nConst 1\nCase 0\nAdd\nVar 4\nVar 3\nConst 1\n";
    let text = function("number", "Call 0 on 0") + parameters + body;
    assert_eq!(told_of(&text), expected);
}

#[test]
fn of_many_names_the_oldest_are_told() {
    let mut records = String::new();
    for case in 0..40 {
        records += &format!(
            "Case {}, Leaf, Const 1, Node, Call 0 on {}, ",
            2 * case,
            2 * case + 1
        );
    }
    let told = told_of(&function("tree", &(records + "Call 0 on 81")));
    let lines: Vec<&str> = told.lines().collect();
    assert_eq!(lines[1], "  trees 0 to 80 are bound here");
    assert_eq!(lines.len(), 2 + 16 + 1);
    assert_eq!(lines[18], "  and 25 more");
}

// Types

#[test]
fn why_a_type_is_expected_is_told() {
    for (gives, records, expected) in [
        (
            "tree",
            "Const 1",
            "\
refused 8 2: a tree is expected here, and this gives a number
  function 0 gives a tree (line 1)
",
        ),
        (
            "tree",
            "Node, Leaf, Const 1, Const 1",
            "\
refused 8 5: a tree is expected here, and this gives a number
  this is the right tree of 'Node' (line 2)
",
        ),
        (
            "number",
            "Case 0, Leaf, Const 1, Const 1",
            "\
refused 8 3: a number is expected here, and this gives a tree
  this is the leaf part of 'Case 0' (line 2)
  function 0 gives a number (line 1)
",
        ),
        (
            "tree",
            "Leaf, IfZero, Const 1, Const 1, Leaf, Const 1",
            "\
refused 8 6: a number is expected here, and this gives a tree
  this is the other part of 'IfZero' (line 3)
  'IfZero' is the label of 'Leaf' (line 2)
",
        ),
        (
            "tree",
            "Leaf, IfZero, Const 1, Const 1, Let, Const 1, Leaf, Const 1",
            "\
refused 8 8: a number is expected here, and this gives a tree
  this is the body of 'Let' (line 6)
  this stands inside 'IfZero', which is the label of 'Leaf' (line 2)
",
        ),
        (
            "tree",
            "IfZero, Call 0 on 0, Leaf, Const 1, Leaf, Const 1",
            "\
refused 8 3: a number is expected here, and this gives a tree
  this is the test of 'IfZero' (line 2)
  function 0 gives a tree (line 1)
",
        ),
    ] {
        assert_eq!(told_of(&function(gives, records)), expected);
    }
}

#[test]
fn a_tree_as_an_argument_is_told() {
    let called = "function 1 takes tree 0, number 0, number 1 gives number\nCall 0 on 0\n";
    let expected = "\
refused 8 5: a number is expected here, and this gives a tree
  this is the second argument of 'Call 1 on 0' (line 2)
";
    let text = function("number", "Call 1 on 0, Const 1, Leaf, Const 1") + called;
    assert_eq!(told_of(&text), expected);
}

// Words

#[test]
fn words_of_every_sort_are_told() {
    let lets: Vec<String> = vec!["Let\nConst 1\n".to_owned(); 8];
    let text = format!(
        "{}function 1 takes tree 0, number 0, number 1, number 2 gives number
Call 1 on 0\nConst 1\nConst 1\nCase 0\nAdd\nConst 1\n{}Add\nVar 0\nCall 1 on 0\nConst 1\nVar 0\nConst 1\nConst 1\n",
        function("number", "Call 0 on 0"),
        lets.concat()
    );
    let expected = "\
refused 10 29: no more than 16 numbers (words) may be held at a time, and this would be the 17th
  numbers 0 to 2: the number parameters of function 1 (line 3)
  waiting: the first 2 arguments of 'Call 1 on 0' (line 4)
  number 3: the label of tree 0, by 'Case 0' (line 7)
  waiting: the first number of 'Add' (line 8)
";
    let told = told_of(&text);
    assert!(told.starts_with(expected), "{told}");
    let end = "\
  number 11: the number of 'Let' (line 24)
  waiting: the first number of 'Add' (line 26)
";
    assert!(told.ends_with(end), "{told}");
}

#[test]
fn a_label_may_be_one_word_too_many() {
    let lets = ["Let, Const 1"; 16].join(", ");
    let told = told_of(&function(
        "number",
        &format!("{lets}, Case 0, Const 1, Const 1"),
    ));
    let expected = "\
refused 10 34: no more than 16 numbers (words) may be held at a time, \
and the label of tree 0 would be the 17th
  number 0: the number of 'Let' (line 2)
";
    assert!(told.starts_with(expected), "{told}");
}
