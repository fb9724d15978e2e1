//! Two tree readers in plain Rust: by recursion on a tree's two parts, and by
//! the loop that the proved reader has.

use hogvax::{Measures, Refused};

use crate::Answer;

const LEAF_TAG: u8 = 1;
const NODE_TAG: u8 = 2;

/// A leaf's tag and its label.
const LEAF_BYTES: usize = 5;

/// The most nodes above a leaf.
const MOST_DEPTH: usize = 1_024;

const INPUT_ENDED: u32 = 15;
const NOT_A_TAG: u32 = 16;
const TOO_DEEP: u32 = 20;

fn refuse(number: u32, position: usize) -> Answer {
    let position = position as u64;
    Err(Refused { number, position })
}

/// The measures of a tree of `bytes` bytes whose deepest leaf is under `depth` nodes.
/// A tree of n tips has n - 1 nodes: 6n - 1 bytes.
fn measures(bytes: usize, depth: usize) -> Answer {
    let tips = (bytes + 1) / 6;
    Ok(Measures { bytes, tips, depth })
}

pub fn by_recursion(input: &[u8]) -> Answer {
    let found = part_by_recursion(input, 0, 0, 0);
    if found.end <= input.len() {
        return measures(found.end, found.deepest);
    }
    let at = usize::MAX - found.end;
    match input.get(at) {
        None => refuse(INPUT_ENDED, at),
        Some(&LEAF_TAG) => refuse(INPUT_ENDED, at + 1),
        Some(&NODE_TAG) => refuse(TOO_DEEP, at),
        Some(_) => refuse(NOT_A_TAG, at),
    }
}

/// What the recursion gives: two numbers, so that all is passed in registers. The
/// tips follow from the end.
struct Found {
    /// The part's end, or `usize::MAX` less the offset of the tag at which it is
    /// refused.
    end: usize,
    /// The nodes above the deepest leaf so far.
    deepest: usize,
}

/// The part that begins at `at`, under `above` nodes; the deepest leaf before it is
/// under `deepest` nodes. The right part of a node comes last, so that the compiler can
/// make a loop of it.
fn part_by_recursion(input: &[u8], at: usize, above: usize, deepest: usize) -> Found {
    let refused = Found {
        end: usize::MAX - at,
        deepest,
    };
    if input.len() <= at {
        return refused;
    }
    match input[at] {
        LEAF_TAG if input.len() - at >= LEAF_BYTES => Found {
            end: at + LEAF_BYTES,
            deepest: deepest.max(above),
        },
        NODE_TAG if above < MOST_DEPTH => {
            let left = part_by_recursion(input, at + 1, above + 1, deepest);
            if input.len() < left.end {
                return left;
            }
            part_by_recursion(input, left.end, above + 1, left.deepest)
        }
        _ => refused,
    }
}

/// `above` nodes are open; `above_next` are above the right tree that comes next, 0 if
/// there is none; `deepest` were above the deepest leaf so far. The mark of an open
/// node is what `above_next` was before it.
pub fn by_loop(input: &[u8]) -> Answer {
    if input.len() >= LEAF_BYTES && input[0] == LEAF_TAG {
        return measures(LEAF_BYTES, 0);
    }
    let mut marks = [0_u16; MOST_DEPTH];
    let (mut at, mut above, mut above_next, mut deepest) = (0, 0, 0, 0);
    while at < input.len() {
        match input[at] {
            NODE_TAG if above == MOST_DEPTH => return refuse(TOO_DEEP, at),
            NODE_TAG => {
                marks[above] = above_next as u16;
                above += 1;
                above_next = above;
                at += 1;
            }
            LEAF_TAG if input.len() - at < LEAF_BYTES => return refuse(INPUT_ENDED, at + 1),
            LEAF_TAG => {
                at += LEAF_BYTES;
                deepest = deepest.max(above);
                if above_next == 0 {
                    return measures(at, deepest);
                }
                above = above_next;
                above_next = marks[above - 1].into();
            }
            _ => return refuse(NOT_A_TAG, at),
        }
    }
    refuse(INPUT_ENDED, at)
}
