//! Programs with known answers: document 01's worked programs and traps, and
//! programs at the limits.

use crate::program::{Expr, Function, Program};
use crate::tree::{refuse, Refusal};

mod depth;
mod pending;
pub(crate) mod text;
mod traps;
mod words;
mod worked;

/// A program and what both passes answer.
pub struct Known {
    /// What it shows.
    pub name: &'static str,
    pub program: Program,
    pub answer: Result<(), Refusal>,
}

/// All of them; the first is document 01's Grow.
pub fn all() -> Vec<Known> {
    let lists = [
        worked::programs(),
        traps::programs(),
        words::at_each_kind(),
        words::of_parts(),
        words::of_arguments(),
        pending::lists(),
        pending::names(),
        depth::of_numbers(),
        depth::of_branches(),
        depth::of_trees(),
    ];
    lists.into_iter().flatten().collect()
}

fn passes(name: &'static str, functions: Vec<Function>) -> Known {
    Known {
        name,
        program: Program::new(functions),
        answer: Ok(()),
    }
}

fn refused(number: u8, position: usize, name: &'static str, functions: Vec<Function>) -> Known {
    Known {
        name,
        program: Program::new(functions),
        answer: refuse(number, position),
    }
}

fn function(tree_valued: bool, parameters: u8, body: Expr) -> Function {
    Function {
        tree_valued,
        parameters,
        body,
    }
}

/// One function, which gives a number. Its first node has record 2.
fn number(body: Expr) -> Vec<Function> {
    vec![function(false, 0, body)]
}

/// One function, which gives a tree. Its first node has record 2.
fn tree(body: Expr) -> Vec<Function> {
    vec![function(true, 0, body)]
}

/// Const 1.
fn one() -> Expr {
    Expr::constant(1)
}

/// Leaf, Const 1.
fn leaf() -> Expr {
    Expr::leaf(one())
}

/// A call of function 0 on this tree.
fn call(tree: u8) -> Expr {
    Expr::call(tree, 0, vec![])
}

/// So many expressions, each a part of the next.
fn nested(count: usize, inner: Expr, around: impl Fn(Expr) -> Expr) -> Expr {
    (0..count).fold(inner, |expr, _| around(expr))
}

/// So many Lets around an expression, each the body of the one before, with
/// this number in the first and Const 1 in the others.
fn lets(count: usize, first: Expr, body: Expr) -> Expr {
    let others = nested(count - 1, body, |body| Expr::let_in(one(), body));
    Expr::let_in(first, others)
}
