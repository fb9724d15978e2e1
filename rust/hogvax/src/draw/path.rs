//! The nodes above the tip that is drawn.

/// A node above the tip that is drawn.
pub struct Node {
    /// Whether the tip is in its right part.
    pub right: bool,
    /// Whether its left part is another tip.
    left_is_tip: bool,
    /// Whether its stroke down has begun, at its left branch, and has not
    /// ended, at its right one.
    pub stroke: bool,
}

/// The nodes above the tip that is drawn, the root first: each at its level,
/// counted from 0. The tip has the level after them.
#[derive(Default)]
pub struct Path {
    pub nodes: Vec<Node>,
}

impl Path {
    /// Goes on from a node to its left part.
    pub fn open(&mut self) {
        self.nodes.push(Node {
            right: false,
            left_is_tip: false,
            stroke: false,
        });
    }

    /// Goes on from a tip to what follows it.
    pub fn go_on(&mut self) {
        let left_is_tip = self.nodes.last().is_some_and(|node| !node.right);
        while self.nodes.last().is_some_and(|node| node.right) {
            self.nodes.pop();
        }
        if let Some(node) = self.nodes.last_mut() {
            node.right = true;
            node.left_is_tip = left_is_tip;
        }
    }

    /// The fork of two tips whose second one this is: it stands on a line
    /// before the tip's.
    pub fn fork_above_tip(&self) -> Option<usize> {
        let node = self.nodes.last()?;
        node.left_is_tip.then(|| self.nodes.len() - 1)
    }

    /// The fork that stands on the tip's line: the one whose left part, not a
    /// tip, ends with it, or the one whose right part begins with it and whose
    /// left part is a tip.
    pub fn fork_beside_tip(&self) -> Option<usize> {
        let ends = self.nodes.last()?.right;
        let level = self.nodes.iter().rposition(|node| node.right != ends)?;
        (ends || self.nodes[level].left_is_tip).then_some(level)
    }
}
