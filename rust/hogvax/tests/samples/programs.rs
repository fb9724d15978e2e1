//! The sample programs, written out.

use reference::{Expr, Function, Program};

fn constant(i: i32) -> Expr {
    Expr::constant(i)
}

fn var(a: u8) -> Expr {
    Expr::var(a)
}

/// A call without arguments.
fn call(function: u16, tree: u8) -> Expr {
    Expr::call(tree, function, vec![])
}

/// A call with one argument.
fn call_with(function: u16, tree: u8, argument: Expr) -> Expr {
    Expr::call(tree, function, vec![argument])
}

fn tree_valued(parameters: u8, body: Expr) -> Function {
    Function {
        tree_valued: true,
        parameters,
        body,
    }
}

fn number_valued(body: Expr) -> Function {
    Function {
        tree_valued: false,
        parameters: 0,
        body,
    }
}

fn grow() -> Vec<Function> {
    let leaf = Expr::leaf(Expr::plus(var(0), constant(1)));
    let node = Expr::node(call(0, 1), call(0, 2));
    vec![tree_valued(0, Expr::case(0, leaf, node))]
}

fn sum() -> Vec<Function> {
    let node = Expr::plus(call(0, 1), call(0, 2));
    vec![number_valued(Expr::case(0, var(0), node))]
}

fn tips() -> Vec<Function> {
    let node = Expr::plus(call(0, 1), call(0, 2));
    vec![number_valued(Expr::case(0, constant(1), node))]
}

fn depth() -> Vec<Function> {
    let node = Expr::node(call_with(1, 1, var(1)), call_with(1, 2, var(1)));
    let node = Expr::let_in(Expr::plus(var(0), constant(1)), node);
    vec![
        tree_valued(0, call_with(1, 0, constant(0))),
        tree_valued(1, Expr::case(0, Expr::leaf(var(0)), node)),
    ]
}

fn prune() -> Vec<Function> {
    let less = || Expr::plus(var(0), constant(-1));
    let node = Expr::node(call_with(1, 1, less()), call_with(1, 2, less()));
    let kept = Expr::case(0, Expr::leaf(var(1)), node);
    let first = Expr::let_in(call(2, 1), Expr::let_in(call(3, 2), var(0)));
    let passed_over = Expr::let_in(call(3, 1), call(3, 2));
    vec![
        tree_valued(0, call_with(1, 0, constant(3))),
        tree_valued(1, Expr::if_zero(var(0), Expr::leaf(call(2, 0)), kept)),
        number_valued(Expr::case(0, var(0), first)),
        number_valued(Expr::case(0, constant(0), passed_over)),
    ]
}

fn swap() -> Vec<Function> {
    let node = Expr::node(call(0, 2), call(0, 1));
    vec![tree_valued(0, Expr::case(0, Expr::leaf(var(0)), node))]
}

pub fn programs() -> [(&'static str, Program); 6] {
    [
        ("depth", Program::new(depth())),
        ("grow", Program::new(grow())),
        ("prune", Program::new(prune())),
        ("sum", Program::new(sum())),
        ("swap", Program::new(swap())),
        ("tips", Program::new(tips())),
    ]
}
