//! Pass two as a walk over the pending trees, which gives the first fault and
//! its record.

use crate::program::{Expr, Program};

use super::{Fault, Found, PENDING_LIMIT};

/// The names of the pending trees, the head first. A name may be above 255.
pub type Pending = Vec<usize>;

/// "Pass two, in prefix order": function by function, each to its end.
pub fn check(program: &Program) -> Result<(), Found> {
    let mut first = 1 + program.functions.len();
    for function in &program.functions {
        check_body(&function.body, first)?;
        first += function.body.prefix().len();
    }
    Ok(())
}

/// "at first the parameter alone"; "a function ends with none". `first` is
/// the record of the function's first node.
fn check_body(body: &Expr, first: usize) -> Result<(), Found> {
    let mut walk = Walk { position: first };
    let left = walk.expression(body, 1, vec![0])?;
    if left.is_empty() {
        Ok(())
    } else {
        found(Fault::TreesLeft, first)
    }
}

fn found<T>(fault: Fault, position: usize) -> Result<T, Found> {
    Err(Found { fault, position })
}

/// The walk enters every record once, in prefix order.
struct Walk {
    /// The record entered next.
    position: usize,
}

impl Walk {
    /// The trees pending after an expression. `trees` is the number of tree
    /// names bound along the path: the next name.
    fn expression(
        &mut self,
        expr: &Expr,
        trees: usize,
        pending: Pending,
    ) -> Result<Pending, Found> {
        let position = self.position;
        self.position += 1;
        match expr {
            Expr::Const(_) | Expr::Var(_) => Ok(pending),
            Expr::Leaf(number) => self.expression(number, trees, pending),
            Expr::Add(p, q) | Expr::Let(p, q) | Expr::Node(p, q) => {
                let pending = self.expression(p, trees, pending)?;
                self.expression(q, trees, pending)
            }
            Expr::IfZero(test, zero, other) => {
                let pending = self.expression(test, trees, pending)?;
                let by_zero = self.expression(zero, trees, pending.clone())?;
                let by_other = self.expression(other, trees, pending)?;
                equal(by_zero, by_other, Fault::UnequalAtIfZero, position)
            }
            Expr::Case(a, leaf, node) => {
                let rest = case_head(&pending, *a, position)?;
                let by_leaf = self.expression(leaf, trees, rest.clone())?;
                let pending = [vec![trees, trees + 1], rest].concat();
                let by_node = self.expression(node, trees + 2, pending)?;
                equal(by_leaf, by_node, Fault::UnequalAtCase, position)
            }
            Expr::Call(a, _, arguments) => {
                let mut pending = pending;
                for argument in arguments {
                    pending = self.expression(argument, trees, pending)?;
                }
                call_head(&pending, *a, position)
            }
        }
    }
}

/// "Both branches of Case or IfZero must end with equal lists, compared once
/// both are through".
fn equal(one: Pending, two: Pending, fault: Fault, position: usize) -> Result<Pending, Found> {
    if one == two {
        Ok(one)
    } else {
        found(fault, position)
    }
}

/// "Case takes the head": what is pending after it. First "11 not the head",
/// then "12 Case with 16 pending", the head among them.
fn case_head(pending: &Pending, a: u8, position: usize) -> Result<Pending, Found> {
    match pending.split_first() {
        None => found(Fault::CaseWithNone, position),
        Some((&head, _)) if head != usize::from(a) => found(Fault::CaseNotHead, position),
        Some(_) if pending.len() >= PENDING_LIMIT => found(Fault::PendingFull, position),
        Some((_, rest)) => Ok(rest.to_vec()),
    }
}

/// "Call takes the head after its arguments."
fn call_head(pending: &Pending, a: u8, position: usize) -> Result<Pending, Found> {
    match pending.split_first() {
        None => found(Fault::CallWithNone, position),
        Some((&head, _)) if head != usize::from(a) => found(Fault::CallNotHead, position),
        Some((_, rest)) => Ok(rest.to_vec()),
    }
}
