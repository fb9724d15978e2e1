//! Pass two: the order in which a program takes its trees.

use std::mem;

use super::super::outline::{FunctionOutline, Node, Outline};
use super::super::records::{CALL, CASE, IF_ZERO};
use super::trees::{must_be_equal, must_be_first, must_be_through, must_have_room, Branch, Trees};
use super::Found;

/// Function by function, each to its end.
pub fn check(program: &Outline) -> Result<(), Found> {
    for (k, function) in program.functions.iter().enumerate() {
        let trees = walk(program, function)?;
        must_be_through(k, function, &trees)?;
    }
    Ok(())
}

/// Walks through a function's records in order, each being entered, and left
/// once its parts are finished.
fn walk(program: &Outline, function: &FunctionOutline) -> Result<Trees, Found> {
    let mut walk = Walk {
        program,
        trees: Trees::at_first(),
        open: Vec::new(),
    };
    let nodes = &function.nodes;
    let next = nodes.iter().skip(1).map(|next| next.whole);
    for (node, whole_of_next) in nodes.iter().zip(next.chain([None])) {
        walk.enter(node)?;
        let still_open = whole_of_next.map(|(number, _)| number);
        while walk
            .innermost()
            .is_some_and(|inner| Some(inner) != still_open)
        {
            walk.leave()?;
        }
    }
    Ok(walk.trees)
}

struct Walk<'a> {
    program: &'a Outline,
    /// The trees where the walk has come to.
    trees: Trees,
    /// The records whose parts are not finished, the innermost last.
    open: Vec<Open<'a>>,
}

/// A record whose parts are not finished.
struct Open<'a> {
    node: &'a Node,
    /// Of a Case, and of an IfZero whose test is finished: what both branches
    /// begin with, but for the trees that a node part binds.
    before: Trees,
    /// The branches that are finished.
    branches: Vec<Branch>,
}

impl<'a> Walk<'a> {
    /// The number of the innermost open record.
    fn innermost(&self) -> Option<usize> {
        self.open.last().map(|open| open.node.number)
    }

    /// A Case takes its tree before its parts.
    fn enter(&mut self, node: &'a Node) -> Result<(), Found> {
        let mut open = Open {
            node,
            before: Trees::default(),
            branches: Vec::new(),
        };
        if node.record.kind == CASE {
            must_be_first(self.program, node, &self.trees)?;
            must_have_room(node, &self.trees)?;
            self.trees.take_first(node);
            open.before = self.trees.clone();
        }
        self.open.push(open);
        Ok(())
    }

    /// A Call takes its tree after its arguments. The branches of a Case or
    /// IfZero are compared once both are finished.
    fn leave(&mut self) -> Result<(), Found> {
        let Some(open) = self.open.pop() else {
            return Ok(());
        };
        let node = open.node;
        if node.record.kind == CALL {
            must_be_first(self.program, node, &self.trees)?;
            self.trees.take_first(node);
        }
        if let Ok([one, two]) = <[Branch; 2]>::try_from(open.branches) {
            must_be_equal(node, &one, &two)?;
            self.trees = open.before.behind_both(node, one.behind, two.behind);
        }
        if let (Some(whole), Some((_, part))) = (self.open.last_mut(), node.whole) {
            whole.leave_part(part, node.number, &mut self.trees);
        }
        Ok(())
    }
}

impl Open<'_> {
    /// A part is finished. After a branch the walk goes on with what the next
    /// one begins with.
    fn leave_part(&mut self, part: usize, record: usize, trees: &mut Trees) {
        let next = match (self.node.record.kind, part) {
            (IF_ZERO, 0) => {
                self.before = trees.clone();
                return;
            }
            (CASE, 0) => self.before.with_both(self.node),
            (CASE | IF_ZERO, _) => self.before.clone(),
            _ => return,
        };
        self.branches.push(Branch {
            part,
            record,
            behind: mem::replace(trees, next),
        });
    }
}
