//! The places of a program where another expression can be put.

use crate::order::pass_one::{contexts, Context};
use crate::order::walk::Pending;
use crate::program::{Expr, Function, Program};

/// An expression of a program that passes both passes.
pub struct Site<'a> {
    pub function: usize,
    /// The place of its record among the function's nodes.
    pub node: usize,
    /// The number of its record.
    pub position: usize,
    pub expr: &'a Expr,
    pub context: Context,
    /// The trees pending on entering and on leaving it.
    pub entered: Pending,
    pub left: Pending,
}

/// All of them, in the order of their records.
pub fn sites(program: &Program) -> Vec<Site<'_>> {
    let mut sites = Vec::new();
    for (k, function) in program.functions.iter().enumerate() {
        let mut lists = Vec::new();
        trace(&function.body, 1, vec![0], &mut lists);
        let entered = contexts(function).into_iter().zip(lists);
        for (node, ((expr, context), [entered, left])) in entered.enumerate() {
            sites.push(Site {
                function: k,
                node,
                position: 1 + program.functions.len() + sites.len(),
                expr,
                context,
                entered,
                left,
            });
        }
    }
    sites
}

/// Adds, for each record, the trees pending on entering and on leaving its
/// expression. Gives the latter for the whole.
fn trace(expr: &Expr, trees: usize, pending: Pending, lists: &mut Vec<[Pending; 2]>) -> Pending {
    let record = lists.len();
    lists.push([pending.clone(), vec![]]);
    let mut left = pending;
    match expr {
        Expr::IfZero(test, zero, other) => {
            left = trace(test, trees, left, lists);
            trace(zero, trees, left.clone(), lists);
            left = trace(other, trees, left, lists);
        }
        Expr::Case(_, leaf, node) => {
            left.remove(0);
            let both = [vec![trees, trees + 1], left.clone()].concat();
            trace(leaf, trees, left, lists);
            left = trace(node, trees + 2, both, lists);
        }
        _ => {
            for part in expr.parts() {
                left = trace(part, trees, left, lists);
            }
            if let Expr::Call(..) = expr {
                left.remove(0);
            }
        }
    }
    lists[record][1] = left.clone();
    left
}

/// The program with another expression in the place of the one that begins at
/// this node of this function.
pub fn put(program: &Program, function: usize, node: usize, expr: &Expr) -> Program {
    let mut functions = program.functions.clone();
    let Function { body, .. } = &mut functions[function];
    let mut records = body.prefix_records();
    let length = body.prefix()[node].prefix().len();
    records.splice(node..node + length, expr.prefix_records());
    *body = Expr::from_prefix(&records).expect("one expression for another");
    Program {
        edition: program.edition,
        functions,
    }
}
