//! What Grow, Sum and Fill compute, directly from the tree.

use super::programs::{FILL, GROW, SUM};
use crate::machine::Ran;
use crate::sum::{exact_sum, SUM_OUT_OF_RANGE};
use crate::tree::{Refusal, Token, Tree, LEAF_TAG, NODE_TAG};

/// A program's listing, what it writes with room enough, and what it answers
/// with fuel enough.
#[derive(Clone, Debug)]
pub struct Computed {
    pub listing: &'static str,
    pub wrote: Vec<u8>,
    pub ran: Ran,
}

/// What Grow, Sum and Fill compute.
pub fn results(tree: &Tree) -> [Computed; 3] {
    [
        computed(GROW, grown(tree)),
        computed(SUM, summed(tree)),
        filled(tree),
    ]
}

/// So far: the units, the bytes read, and those written.
#[derive(Default)]
struct Progress {
    units: u64,
    read: usize,
    wrote: Vec<u8>,
}

/// Ended with a number, or refused 21.
type Outcome = (Progress, Option<i32>);

fn computed(listing: &'static str, (so_far, number): Outcome) -> Computed {
    let refusal = Refusal {
        number: SUM_OUT_OF_RANGE,
        position: so_far.read,
    };
    Computed {
        listing,
        ran: Ran {
            refusal: number.is_none().then_some(refusal),
            units: so_far.units,
            read: so_far.read,
            written: so_far.wrote.len(),
            number: number.unwrap_or(0),
        },
        wrote: so_far.wrote,
    }
}

/// Goes through a tree from left to right: `node` does what comes before a
/// node's parts, `after` what comes after them, with their numbers. A leaf or
/// node gives none where it is refused.
fn through(
    tree: &Tree,
    node: fn(&mut Progress),
    leaf: fn(&mut Progress, i32) -> Option<i32>,
    after: fn(&mut Progress, i32, i32) -> Option<i32>,
) -> Outcome {
    let mut so_far = Progress::default();
    // The numbers of the left parts of the open nodes, where they are through.
    let mut open: Vec<Option<i32>> = Vec::new();
    for token in tree.prefix() {
        so_far.read += 1;
        let Token::Leaf(label) = token else {
            node(&mut so_far);
            open.push(None);
            continue;
        };
        so_far.read += 4;
        let mut number = leaf(&mut so_far, label);
        while let (Some(right), Some(Some(left))) = (number, open.last().copied()) {
            open.pop();
            number = after(&mut so_far, left, right);
        }
        match open.last_mut() {
            Some(left) if number.is_some() => *left = number,
            _ => return (so_far, number),
        }
        // The call on the right part.
        so_far.units += 1;
    }
    unreachable!("a tree ends with a leaf")
}

/// For a node: read tag, node tag, two calls, return. For a leaf: read tag,
/// read number, leaf tag, get, push, add, write number, drop, jump, return.
fn grown(tree: &Tree) -> Outcome {
    through(
        tree,
        |so_far| {
            so_far.units += 3;
            so_far.wrote.push(NODE_TAG);
        },
        |so_far, label| {
            so_far.units += 5;
            so_far.wrote.push(LEAF_TAG);
            let grown = exact_sum(label, 1)?;
            so_far.units += 5;
            so_far.wrote.extend(grown.to_le_bytes());
            Some(0)
        },
        |so_far, _, _| {
            so_far.units += 1;
            Some(0)
        },
    )
}

/// For a node: read tag, two calls, add, return. For a leaf: read tag, read
/// number, get, slide, jump, return.
fn summed(tree: &Tree) -> Outcome {
    through(
        tree,
        |so_far| so_far.units += 2,
        |so_far, label| {
            so_far.units += 6;
            Some(label)
        },
        |so_far, left, right| {
            let sum = exact_sum(left, right)?;
            so_far.units += 2;
            Some(sum)
        },
    )
}

/// Labels 0 become 10 and the number of nodes above; no tree is so deep that
/// this is out of range. The units column, added up.
fn filled(tree: &Tree) -> Computed {
    let (mut pending, mut zeros) = (vec![0], 0);
    let mut so_far = Progress::default();
    for token in tree.prefix() {
        let above = pending.pop().expect("a tree");
        let token = match token {
            Token::Leaf(0) => {
                zeros += 1;
                Token::Leaf(10 + above)
            }
            Token::Leaf(label) => Token::Leaf(label),
            Token::Node => {
                pending.extend([above + 1, above + 1]);
                Token::Node
            }
        };
        token.write(&mut so_far.wrote);
    }
    let tips = tree.tips();
    so_far.units = (9 * tips + 12 * (tips - 1) + zeros + 4) as u64;
    so_far.read = so_far.wrote.len();
    computed(FILL, (so_far, Some(0)))
}
