//! Deep expressions in each of many open calls.

use super::*;
use crate::tree::Token;

/// One function of so many expressions nested in each other around a Call of
/// itself on tree 0.
fn nested(tree_valued: bool, count: usize, around: impl Fn(Expr) -> Expr) -> Program {
    let innermost = Expr::call(0, 0, vec![]);
    let body = (0..count).fold(innermost, |expr, _| around(expr));
    let function = Function {
        tree_valued,
        parameters: 0,
        body,
    };
    Program::new(vec![function])
}

fn one() -> Expr {
    Expr::constant(1)
}

/// What each nest begins in a call before the next call: its own expressions,
/// so many others at each level, and the Call.
fn begins_in_each_call(program: Program, count: u64, others: u64) {
    let open = 1_200;
    let answer = evaluate(&program, &Tree::leaf(0), open, LONG);
    let begun = (count * (1 + others) + 1) * open as u64;
    assert_eq!(answer, Evaluation::TooManyOpen { begun });
}

#[test]
fn every_kind_nested_in_every_call() {
    let leaf = || Expr::leaf(one());
    let add = nested(false, 511, |expr| Expr::plus(expr, one()));
    begins_in_each_call(add, 511, 0);
    let add = nested(false, 511, |expr| Expr::plus(one(), expr));
    begins_in_each_call(add, 511, 1);
    let node = nested(true, 341, |expr| Expr::node(expr, leaf()));
    begins_in_each_call(node, 341, 0);
    let body = nested(true, 511, |expr| Expr::let_in(one(), expr));
    begins_in_each_call(body, 511, 1);
    let number = nested(false, 511, |expr| Expr::let_in(expr, one()));
    begins_in_each_call(number, 511, 0);
    let test = nested(true, 341, |expr| Expr::if_zero(one(), leaf(), expr));
    begins_in_each_call(test, 341, 1);
    let case = nested(false, 511, |expr| Expr::case(0, expr, one()));
    begins_in_each_call(case, 511, 0);
}

/// Function 1 has 1,023 records: Calls of itself, each the argument of the
/// one before. The innermost argument is Var 0.
#[test]
fn calls_nested_in_arguments() {
    let arguments = (0..1_022).fold(Expr::var(0), |argument, _| Expr::call(0, 1, vec![argument]));
    let function = |parameters, body| Function {
        tree_valued: false,
        parameters,
        body,
    };
    let first = Expr::call(0, 1, vec![one()]);
    let program = Program::new(vec![function(0, first), function(1, arguments)]);
    let answer = evaluate(&program, &Tree::leaf(0), 1_024, LONG);
    let begun = 2 + 1_023 * 1_023;
    assert_eq!(answer, Evaluation::TooManyOpen { begun });
    let given_up = evaluate(&program, &Tree::leaf(0), usize::MAX, 1_000_000);
    assert_eq!(given_up, Evaluation::TooLong);
}

/// A sum out of range under 511 Adds in each of 1,024 calls: the innermost
/// Add of the last call.
#[test]
fn a_sum_out_of_range_under_many_others() {
    let function = |body| Function {
        tree_valued: false,
        parameters: 0,
        body,
    };
    let below = Expr::case(0, Expr::plus(Expr::var(0), one()), Expr::call(1, 0, vec![]));
    let body = (0..508).fold(below, |expr, _| Expr::plus(expr, one()));
    let program = Program::new(vec![function(body)]);
    let tokens = [vec![Token::Node; 1_023], vec![Token::Leaf(i32::MAX); 1_024]].concat();
    let tree = Tree::from_prefix(&tokens).expect("a tree");
    let answer = evaluate(&program, &tree, 1_024, LONG);
    // 508 Adds and a Case stand before the innermost Add.
    let expected = Evaluation::SumOutOfRange {
        record: 2 + 508 + 1,
        begun: 1_023 * (508 + 2) + 508 + 4,
        units: 1_023 * 2 + 4,
    };
    assert_eq!(answer, expected);
}

/// A node for each of two calls more: the number of expressions doubles with
/// each level, and the evaluation is given up.
#[test]
fn a_long_evaluation_is_given_up() {
    let twice = |b| Expr::node(Expr::call(0, b, vec![]), Expr::call(0, b, vec![]));
    let mut functions: Vec<Function> = (1..32)
        .map(|b| Function {
            tree_valued: true,
            parameters: 0,
            body: twice(b),
        })
        .collect();
    functions.push(Function {
        tree_valued: true,
        parameters: 0,
        body: Expr::leaf(one()),
    });
    let program = Program::new(functions);
    let answer = evaluate(&program, &Tree::leaf(0), 1_024, 1_000_000);
    assert_eq!(answer, Evaluation::TooLong);
}
