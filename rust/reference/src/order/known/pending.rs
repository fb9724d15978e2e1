//! "The pending trees are a list of at most 16 numbers", which may be above
//! 255.

use super::*;

/// "12 Case with 16 pending".
pub fn lists() -> Vec<Known> {
    let chain = |count, last| number(left_chain(count, last));
    let not_head = Expr::case(0, one(), one());
    let never_reached = Expr::case(29, call(0), one());
    vec![
        passes("15 pending at a Case", number(spread(15, 0))),
        refused(12, 214, "16 pending at a Case", number(spread(16, 0))),
        refused(11, 30, "a chain of 15 Cases", chain(15, one())),
        refused(12, 32, "a chain of 16 Cases", chain(16, one())),
        refused(12, 32, "a chain of 100 Cases", chain(100, one())),
        refused(11, 32, "11 before 12 at one Case", chain(15, not_head)),
        refused(12, 32, "12 before the leaf part", chain(15, never_reached)),
        passes("40 Cases to the right", tree(right_chain(40, call(80)))),
    ]
}

/// The name of the left tree under so many Cases; tree 0 under none.
fn left_name(cases: usize) -> u8 {
    match cases {
        0 => 0,
        _ => 2 * cases as u8 - 1,
    }
}

/// So many Cases with Const 1 as leaf part, each on the left tree of the one
/// before, and the last node part.
fn left_chain(count: usize, last: Expr) -> Expr {
    let heads = (0..count).rev().map(left_name);
    heads.fold(last, |node, head| Expr::case(head, one(), node))
}

/// As `left_chain`, but every part takes all trees, so that only the limit is
/// in the way. `above` is the number of Cases above.
fn spread(count: usize, above: usize) -> Expr {
    let right_names = (1..=above).rev().map(|level| 2 * level as u8);
    let rest: Vec<u8> = right_names.collect();
    if above == count {
        return sum(&[&[left_name(above)], &rest[..]].concat());
    }
    let node = spread(count, above + 1);
    Expr::case(left_name(above), sum(&rest), node)
}

/// The sum of function 0 on these trees, or Const 1.
fn sum(names: &[u8]) -> Expr {
    let calls = names.iter().map(|&name| call(name));
    calls.reduce(Expr::plus).unwrap_or(one())
}

/// So many Cases, each on the right tree of the one before, five records
/// each: Case, Leaf, Const 1, Node, Call 0 on the left tree. Then the last
/// expression, for the right tree of the last.
fn right_chain(count: usize, last: Expr) -> Expr {
    (0..count).rev().fold(last, |right, level| {
        let name = 2 * level as u8;
        Expr::case(name, leaf(), Expr::node(call(name + 1), right))
    })
}

/// Names past 255 can't be given by a record; Case 0 is not Case 256.
pub fn names() -> Vec<Known> {
    let case = |a| Expr::case(a, leaf(), leaf());
    let up_to_254 = |last| tree(right_chain(127, last));
    let only_256 = |last| tree(right_chain(128, last));
    let both = |last| up_to_254(Expr::case(254, leaf(), last));
    let after_257 = |last| both(Expr::case(255, leaf(), last));
    let twice = Expr::node(call(255), call(255));
    vec![
        passes("names up to 254", up_to_254(call(254))),
        refused(9, 637, "Call 255, not bound", up_to_254(call(255))),
        refused(9, 637, "Case 255, not bound", up_to_254(case(255))),
        refused(11, 642, "Call 0 is not Call 256", only_256(call(0))),
        refused(11, 642, "Case 0 is not Case 256", only_256(case(0))),
        refused(11, 637, "256 can't be taken", only_256(leaf())),
        refused(11, 642, "255 can be taken", both(twice)),
        refused(11, 643, "Call 1 is not Call 257", after_257(call(1))),
        refused(11, 643, "Case 1 is not Case 257", after_257(case(1))),
    ]
}
