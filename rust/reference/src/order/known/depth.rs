//! Expressions as deep as 1,024 nodes allow.

use super::*;

pub fn of_numbers() -> Vec<Known> {
    let nest = |around: fn(Expr) -> Expr| number(nested(511, call(0), around));
    let add_left = nest(|expr| Expr::plus(expr, one()));
    let add_right = nest(|expr| Expr::plus(one(), expr));
    let let_number = nest(|expr| Expr::let_in(expr, one()));
    let let_body = nest(|expr| Expr::let_in(one(), expr));
    let leaves = tree(nested(1_023, one(), Expr::leaf));
    vec![
        passes("Add to the left", add_left),
        refused(10, 35, "Add to the right", add_right),
        passes("Let in its number", let_number),
        refused(10, 35, "Let in its body", let_body),
        refused(8, 3, "Leaf in Leaf", leaves),
        refused(11, 1_024, "Call in an argument", arguments()),
    ]
}

/// Function 1 has 1,023 records: Calls of itself, each the argument of the
/// one before. The innermost takes the tree, and the next has none.
fn arguments() -> Vec<Function> {
    let nest = nested(1_022, Expr::var(0), |argument| {
        Expr::call(0, 1, vec![argument])
    });
    vec![function(false, 0, call(0)), function(false, 1, nest)]
}

pub fn of_branches() -> Vec<Known> {
    let nest = |inner, around: fn(Expr) -> Expr| number(nested(341, inner, around));
    let test: fn(Expr) -> Expr = |expr| Expr::if_zero(expr, one(), one());
    let zero = |expr| Expr::if_zero(one(), expr, call(0));
    let other = |expr| Expr::if_zero(one(), call(0), expr);
    let unequal = |expr| Expr::if_zero(one(), expr, one());
    vec![
        passes("IfZero in its test", nest(call(0), test)),
        passes("IfZero in its zero part", nest(call(0), zero)),
        passes("IfZero in its other part", nest(call(0), other)),
        refused(11, 2, "IfZero, a tree left", nest(one(), test)),
        refused(11, 682, "IfZero, the innermost", nest(call(0), unequal)),
    ]
}

pub fn of_trees() -> Vec<Known> {
    let nest = |count, inner, around: fn(Expr) -> Expr| tree(nested(count, inner, around));
    let left = |expr| Expr::node(expr, leaf());
    let right: fn(Expr) -> Expr = |expr| Expr::node(leaf(), expr);
    let twice = Expr::node(call(0), call(0));
    vec![
        passes("Node to the left", nest(341, call(0), left)),
        passes("Node to the right", nest(341, call(0), right)),
        refused(11, 1_024, "Node, a tree twice", nest(340, twice, right)),
        refused(12, 32, "Case in a node part", number(node_parts())),
        refused(10, 18, "Case in a leaf part", number(leaf_parts())),
    ]
}

/// Cases on the left tree of the one before as long as it can be named, then
/// on tree 255, which pass two never comes to.
fn node_parts() -> Expr {
    (0..511).rev().fold(one(), |node, above| {
        let name = if above == 0 { 0 } else { 2 * above - 1 };
        Expr::case(name.min(255) as u8, one(), node)
    })
}

/// Each leaf part has a word more. Only tree 0 is bound there; pass one does
/// not look at what is pending.
fn leaf_parts() -> Expr {
    nested(511, one(), |part| Expr::case(0, part, one()))
}
