//! Known explanations of the order of trees: refusals 11 and 12. Document 01's
//! worked programs and traps are among them.

use super::*;

/// Document 01's worked case.
#[test]
fn exchanged_parts_are_told() {
    let expected = "\
refused 11 6: this is not the first of the pending trees
  pending: tree 1, tree 2
  asked for: tree 2
  tree 1 comes first
";
    let records = "Case 0, Leaf, Var 0, Node, Call 0 on 2, Call 0 on 1";
    assert_eq!(told_of(&function("tree", records)), expected);
}

/// Document 01's worked case.
#[test]
fn a_node_part_leaves_a_tree() {
    let expected = "\
refused 11 2: its leaf part and its node part leave different trees pending
  after the leaf part: none (line 3)
  after the node part: tree 2 (line 4)
";
    let text = function("number", "Case 0, Const 1, Call 0 on 1");
    assert_eq!(told_of(&text), expected);
}

/// Document 01's trap: "g on 1 as argument, then f on 2, is right."
#[test]
fn arguments_take_their_trees_first() {
    let called = "function 1 takes tree 0, number 0 gives number\nCall 1 on 0\nVar 0\n";
    let text = |records| function("number", records) + called;
    let expected = "\
refused 11 6: this is not the first of the pending trees
  pending: tree 1, tree 2
  asked for: tree 2
  tree 1 comes first
";
    let records = "Case 0, Const 1, Call 1 on 1, Call 0 on 2";
    assert_eq!(told_of(&text(records)), expected);
    let expected = "\
refused 11 5: this tree is not pending any more
  pending: tree 2
  asked for: tree 1
  tree 1 was taken by 'Call 0 on 1', in an argument of this Call (line 5)
";
    let records = "Case 0, Const 1, Call 1 on 1, Call 0 on 1";
    assert_eq!(told_of(&text(records)), expected);
    let right = text("Case 0, Const 1, Call 1 on 2, Call 0 on 1");
    let right = read(right.as_bytes()).unwrap();
    assert_eq!(hogvax::check_records(&right.records), Ok(()));
}

/// Document 01's trap: "Passing a branch that leaves a tree unread because the
/// other branch has none to leave."
#[test]
fn a_leaf_part_leaves_a_tree() {
    let expected = "\
refused 11 4: its leaf part and its node part leave different trees pending
  after the leaf part: tree 2 (line 5)
  after the node part: none (line 6)
";
    let records = "Case 0, Const 1, Case 1, Const 1, Add, Add, Call 0 on 3, Call 0 on 4, \
                   Call 0 on 2";
    assert_eq!(told_of(&function("number", records)), expected);
}

#[test]
fn a_zero_part_leaves_a_tree() {
    let expected = "\
refused 11 2: its zero part and its other part leave different trees pending
  after the zero part: tree 0 (line 4)
  after the other part: none (line 5)
";
    let text = function("number", "IfZero, Const 1, Const 1, Call 0 on 0");
    assert_eq!(told_of(&text), expected);
}

#[test]
fn a_function_leaves_its_tree() {
    let expected = "\
refused 11 2: function 0 ends with a tree pending; every tree must be taken, once, in order
  left: tree 0
";
    assert_eq!(told_of(&function("number", "Const 1")), expected);
}

#[test]
fn what_took_a_tree_is_told() {
    let expected = "\
refused 11 6: this tree is not pending any more
  pending: tree 2
  asked for: tree 0
  tree 0 was taken by 'Case 0' (line 2)
";
    let records = "Case 0, Const 1, Add, Call 0 on 1, Call 0 on 0";
    assert_eq!(told_of(&function("number", records)), expected);
    let expected = "\
refused 11 7: this tree is not pending any more
  pending: none
  asked for: tree 0
  tree 0 was taken by 'Call 0 on 0' (line 5)
  tree 0 was taken by 'Call 0 on 0' (line 6)
";
    let records = "Add, IfZero, Const 1, Call 0 on 0, Call 0 on 0, Case 0, Const 1, Const 1";
    assert_eq!(told_of(&function("number", records)), expected);
}

/// The other part of an IfZero took the tree too, but not before.
#[test]
fn a_tree_is_taken_along_one_way() {
    let expected = "\
refused 11 7: this tree is not pending any more
  pending: none
  asked for: tree 0
  tree 0 was taken by 'Call 0 on 0' (line 6)
";
    let records = "IfZero, Const 1, Call 0 on 0, Add, Call 0 on 0, Call 0 on 0";
    assert_eq!(told_of(&function("number", records)), expected);
}

/// Sister parts count from the same number: another tree 3 was taken before.
#[test]
fn names_of_a_sister_part_are_other_trees() {
    let expected = "\
refused 11 13: this is not the first of the pending trees
  pending: tree 3, tree 4
  asked for: tree 4
  tree 3 comes first
";
    let records = "Case 0, Const 1, Add, Case 1, Const 1, Add, Call 0 on 3, Call 0 on 4, \
                   Case 2, Const 1, Add, Call 0 on 4, Call 0 on 3";
    assert_eq!(told_of(&function("number", records)), expected);
    let expected = "\
refused 11 14: this tree is not pending any more
  pending: tree 4
  asked for: tree 3
  tree 3 was taken by 'Call 0 on 3' (line 13)
";
    let records = "Case 0, Const 1, Add, Case 1, Const 1, Add, Call 0 on 3, Call 0 on 4, \
                   Case 2, Const 1, Add, Call 0 on 3, Call 0 on 3";
    assert_eq!(told_of(&function("number", records)), expected);
}

#[test]
fn several_trees_come_first() {
    let expected = "\
refused 11 8: this is not the first of the pending trees
  pending: tree 5, tree 6, tree 4, tree 2
  asked for: tree 2
  tree 5, tree 6 and tree 4 come first
";
    let records = "Case 0, Const 1, Case 1, Const 1, Case 3, Const 1, Call 0 on 2";
    assert_eq!(told_of(&function("number", records)), expected);
}

#[test]
fn a_case_with_sixteen_pending_is_told() {
    let mut cases = vec!["Case 0, Const 1".to_owned()];
    cases.extend((0..15).map(|case| format!("Case {}, Const 1", 2 * case + 1)));
    let expected = "\
refused 12 32: no more than 16 trees may be pending, and this Case would make it 17
  pending: tree 29, tree 30, tree 28, tree 26, tree 24, tree 22, tree 20, tree 18, tree 16, \
tree 14, tree 12, tree 10, tree 8, tree 6, tree 4, tree 2
";
    let records = cases.join(", ") + ", Const 1";
    assert_eq!(told_of(&function("number", &records)), expected);
}
