//! The tree reader.

use crate::{ffi, Refused};

/// How many slots of an answer the tree reader fills.
const SLOTS: usize = 4;

/// What the tree reader gives of a tree.
#[derive(Clone, Copy, Debug, PartialEq, Eq)]
pub struct Measures {
    /// The length of its tokens in bytes, which is where it ends: 6 times its
    /// tips, less 1.
    pub bytes: usize,
    /// Its leaves.
    pub tips: usize,
    /// The nodes above its deepest leaf: 0 for a lone leaf, at most 1,024.
    pub depth: usize,
}

/// The first tree's own bytes: the part of `input` that begins it and is
/// exactly one tree's tokens. Empty if there is no such tree; [`tree`] then
/// says why. Bytes after the tree are not looked at.
pub fn first_tree(input: &[u8]) -> &[u8] {
    &input[..ffi::tree_bytes(input)]
}

/// The length in bytes, the tips and the depth of the tree that begins
/// `input`, or the first fault from the left:
///
/// - 15, the input ended, at the start of the tag or label that is not whole;
/// - 16, a byte that should be a tag is not 1 or 2, at that byte;
/// - 20, a node tag under 1,024 other nodes, at that tag.
///
/// ```
/// // Leaves 5 and 7 under a node, and a byte after the tree.
/// let input = [2, 1, 5, 0, 0, 0, 1, 7, 0, 0, 0, 99];
/// let tree = hogvax::tree(&input).unwrap();
/// assert_eq!((tree.bytes, tree.tips, tree.depth), (11, 2, 1));
/// let leaf = hogvax::tree(&input[1..]).unwrap();
/// assert_eq!((leaf.bytes, leaf.tips, leaf.depth), (5, 1, 0));
///
/// let refused = hogvax::tree(&input[..10]).unwrap_err();
/// assert_eq!(refused.to_string(), "refused 15 7");
/// ```
pub fn tree(input: &[u8]) -> Result<Measures, Refused> {
    let mut answer = [0; SLOTS];
    let number = tree_into(input, &mut answer);
    let [position, bytes, tips, depth] = answer;
    match Refused::told(number, position) {
        None => Ok(Measures {
            bytes: bytes as usize,
            tips: tips as usize,
            depth: depth as usize,
        }),
        Some(refused) => Err(refused),
    }
}

/// The call that [`tree`] makes, as the static library exports it: 0, with 0 and
/// the tree's length, tips and depth in `answer`; or the refusal's number, with
/// its position and three times 0 in `answer`. Slots of `answer` from 4 on are
/// left as they are. With fewer than 4 slots the number is 13 and `answer` is left
/// as it is.
///
/// ```
/// let input = [2, 1, 5, 0, 0, 0, 1, 7, 0, 0, 0];
/// let mut answer = [9; 5];
/// assert_eq!(hogvax::tree_into(&input, &mut answer[..3]), 13);
/// assert_eq!(answer, [9; 5]);
/// assert_eq!(hogvax::tree_into(&input, &mut answer), 0);
/// assert_eq!(answer, [0, 11, 2, 1, 9]);
/// assert_eq!(hogvax::tree_into(&input[..8], &mut answer), 15);
/// assert_eq!(answer, [7, 0, 0, 0, 9]);
/// ```
#[doc(hidden)]
pub fn tree_into(input: &[u8], answer: &mut [u64]) -> u32 {
    ffi::tree(input, answer)
}
