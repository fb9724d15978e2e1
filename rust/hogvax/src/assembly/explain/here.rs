//! A record, and the records that it is inside of.

use super::super::outline::{FunctionOutline, Node, Outline};
use super::Detail;

/// A record and where it stands.
#[derive(Clone, Copy)]
pub struct Here<'a> {
    pub program: &'a Outline,
    /// Its function, counted from 0.
    pub k: usize,
    pub function: &'a FunctionOutline,
    pub node: &'a Node,
}

/// A record that another is inside of, and in which part, counted from 0.
#[derive(Clone, Copy)]
pub struct Step<'a> {
    pub whole: &'a Node,
    pub part: usize,
}

impl<'a> Here<'a> {
    /// What it is inside of, the outermost first.
    pub fn path(&self) -> Vec<Step<'a>> {
        let mut steps = Vec::new();
        let mut node = self.node;
        while let Some((number, part)) = node.whole {
            let Some(whole) = self.program.node(number) else {
                break;
            };
            steps.push(Step { whole, part });
            node = whole;
        }
        steps.reverse();
        steps
    }

    /// Something known of the function's own record.
    pub fn of_function(&self, text: String) -> Detail {
        Detail::of(1 + self.k, text)
    }
}
