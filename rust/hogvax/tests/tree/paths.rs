//! Trees told by a path down from the root and what stands beside it.

use super::*;

/// A leaf whose label looks like tags.
pub const LEAF: [u8; 5] = [1, 2, 1, 2, 1];

/// Where a path goes on from a node.
#[derive(Clone, Copy, Debug, PartialEq, Eq)]
pub enum Side {
    Left,
    Right,
}

pub use Side::{Left, Right};

/// Paths of one length: straight ones, zigzags, and some with one turn.
pub fn paths(length: usize) -> [Vec<Side>; 12] {
    // Whether it goes left at the node with so many nodes above it.
    let goes_left: [fn(usize, usize) -> bool; 12] = [
        |_, _| true,
        |_, _| false,
        |above, _| above % 2 == 0,
        |above, _| above % 2 == 1,
        |above, _| above % 7 < 3,
        |above, _| above % 63 > 30,
        |above, length| above < length / 2,
        |above, length| above >= length / 2,
        |above, length| above + 1 == length,
        |above, length| above + 1 < length,
        |above, _| above == 0,
        |above, _| above > 0,
    ];
    goes_left.map(|goes_left| {
        let sides = (0..length).map(|above| goes_left(above, length));
        sides.map(|left| if left { Left } else { Right }).collect()
    })
}

/// A path of that length that turns at random, seldom or often.
pub fn random_path(random: &mut Random, length: usize) -> Vec<Side> {
    let seldom = random.pick(&[1, 2, 8, 64, 512]);
    let mut side = random.pick(&[Left, Right]);
    let mut path = Vec::with_capacity(length);
    for _ in 0..length {
        if random.below(seldom) == 0 {
            side = random.pick(&[Left, Right]);
        }
        path.push(side);
    }
    path
}

/// The tokens of the tree with this path, and `end` where it ends. `beside` gives
/// the other part of the node with so many nodes above it; it is also told the
/// offset at which that part begins.
pub fn tree_along(
    path: &[Side],
    end: &[u8],
    mut beside: impl FnMut(usize, usize) -> Vec<u8>,
) -> Vec<u8> {
    let mut bytes = Vec::new();
    for (above, side) in path.iter().enumerate() {
        bytes.push(NODE_TAG);
        if *side == Right {
            bytes.extend(beside(above, bytes.len()));
        }
    }
    bytes.extend_from_slice(end);
    for (above, side) in path.iter().enumerate().rev() {
        if *side == Left {
            bytes.extend(beside(above, bytes.len()));
        }
    }
    bytes
}

/// The tokens of the tree with this path and leaves alone beside it.
pub fn caterpillar(path: &[Side]) -> Vec<u8> {
    tree_along(path, &LEAF, |_, _| LEAF.to_vec())
}

/// What stands before the end of the path in the tokens of its caterpillar.
pub fn way_down(path: &[Side]) -> Vec<u8> {
    let mut bytes = caterpillar(path);
    bytes.truncate(end_offset(path));
    bytes
}

/// The offset of the end of the path in the tokens of its caterpillar.
pub fn end_offset(path: &[Side]) -> usize {
    let rights = path.iter().filter(|&&side| side == Right).count();
    path.len() + LEAF.len() * rights
}

/// The tokens of 2^depth trees, each told by its number, with that many nodes above
/// each that halve them.
pub fn under_a_balanced_top(depth: usize, mut tree: impl FnMut(usize) -> Vec<u8>) -> Vec<u8> {
    let mut bytes = Vec::new();
    for number in 0..1_usize << depth {
        // The nodes that begin with this tree.
        let nodes = depth.min(number.trailing_zeros() as usize);
        bytes.resize(bytes.len() + nodes, NODE_TAG);
        bytes.extend(tree(number));
    }
    bytes
}

/// The tokens of a tree with 2^depth tips, halved at every node, all labels
/// different.
pub fn balanced(depth: usize) -> Vec<u8> {
    let mut bytes = Vec::with_capacity(6 << depth);
    let mut pending = vec![depth];
    while let Some(depth) = pending.pop() {
        if depth == 0 {
            let label = bytes.len() as u32;
            bytes.push(LEAF_TAG);
            bytes.extend_from_slice(&label.to_le_bytes());
        } else {
            bytes.push(NODE_TAG);
            pending.extend([depth - 1, depth - 1]);
        }
    }
    bytes
}

/// The offsets of the tags in the tokens of a tree.
pub fn tag_offsets(tokens: &[u8]) -> Vec<usize> {
    let mut offsets = Vec::new();
    let mut at = 0;
    while at < tokens.len() {
        offsets.push(at);
        at += if tokens[at] == LEAF_TAG { 5 } else { 1 };
    }
    offsets
}
