//! Trees, their tokens, and the tree reader.

use std::fmt;
use std::mem;

#[cfg(test)]
mod tests;

/// "A leaf is byte 1, then its label"
pub const LEAF_TAG: u8 = 1;

/// "A node is byte 2, then its left and right trees."
pub const NODE_TAG: u8 = 2;

/// "A node tag under 1,024 others is refused; a leaf under 1,024 nodes is
/// read."
pub const DEPTH_LIMIT: usize = 1024;

/// "15 input ended"
pub const INPUT_ENDED: u8 = 15;

/// "16 byte not 1 or 2"
pub const NOT_A_TAG: u8 = 16;

/// "20 too deep"
pub const TOO_DEEP: u8 = 20;

/// A tree with 32-bit labels at its leaves. Trees may be millions of nodes
/// deep: nothing here but the reader, which is limited, recurs on a tree.
pub enum Tree {
    Leaf(i32),
    Node(Box<Tree>, Box<Tree>),
}

/// What one leaf or node adds to the tokens of a tree.
#[derive(Clone, Copy, Debug, PartialEq, Eq)]
pub enum Token {
    Leaf(i32),
    Node,
}

impl Token {
    /// "A leaf is byte 1, then its label, 4 bytes, two's complement. A node
    /// is byte 2, then its left and right trees."; "Numbers of several bytes
    /// stand low byte first."
    pub fn write(self, bytes: &mut Vec<u8>) {
        match self {
            Token::Leaf(label) => {
                bytes.push(LEAF_TAG);
                bytes.extend_from_slice(&label.to_le_bytes());
            }
            Token::Node => bytes.push(NODE_TAG),
        }
    }
}

/// The leaves and nodes of a tree in the order of its tokens.
pub struct Prefix<'a> {
    pending: Vec<&'a Tree>,
}

impl Iterator for Prefix<'_> {
    type Item = Token;

    fn next(&mut self) -> Option<Token> {
        match self.pending.pop()? {
            Tree::Leaf(label) => Some(Token::Leaf(*label)),
            Tree::Node(left, right) => {
                self.pending.push(right);
                self.pending.push(left);
                Some(Token::Node)
            }
        }
    }
}

impl Tree {
    pub fn leaf(label: i32) -> Tree {
        Tree::Leaf(label)
    }

    pub fn node(left: Tree, right: Tree) -> Tree {
        Tree::Node(Box::new(left), Box::new(right))
    }

    /// The leaves and nodes, a node before its left and then its right tree.
    pub fn prefix(&self) -> Prefix<'_> {
        Prefix {
            pending: vec![self],
        }
    }

    /// The tree with these leaves and nodes, if they are exactly one tree.
    pub fn from_prefix(tokens: &[Token]) -> Option<Tree> {
        let mut trees = Vec::new();
        for token in tokens.iter().rev() {
            let tree = match *token {
                Token::Leaf(label) => Tree::leaf(label),
                Token::Node => Tree::node(trees.pop()?, trees.pop()?),
            };
            trees.push(tree);
        }
        let tree = trees.pop()?;
        trees.is_empty().then_some(tree)
    }

    /// The tokens as bytes.
    pub fn tokens(&self) -> Vec<u8> {
        let mut bytes = Vec::new();
        for token in self.prefix() {
            token.write(&mut bytes);
        }
        bytes
    }

    /// The number of leaves.
    pub fn tips(&self) -> usize {
        self.prefix().filter(|token| *token != Token::Node).count()
    }

    /// The number of nodes above the deepest leaf.
    pub fn depth(&self) -> usize {
        let mut deepest = 0;
        let mut pending = vec![(self, 0)];
        while let Some((tree, above)) = pending.pop() {
            deepest = deepest.max(above);
            if let Tree::Node(left, right) = tree {
                pending.push((right, above + 1));
                pending.push((left, above + 1));
            }
        }
        deepest
    }
}

/// Two trees are equal if their leaves and nodes in prefix order are.
impl PartialEq for Tree {
    fn eq(&self, other: &Tree) -> bool {
        self.prefix().eq(other.prefix())
    }
}

impl Eq for Tree {}

impl Clone for Tree {
    fn clone(&self) -> Tree {
        let tokens: Vec<Token> = self.prefix().collect();
        Tree::from_prefix(&tokens).expect("a tree's tokens are one tree")
    }
}

/// Tips, depth and the first leaves and nodes: trees may be too large to be
/// shown whole.
impl fmt::Debug for Tree {
    fn fmt(&self, f: &mut fmt::Formatter<'_>) -> fmt::Result {
        write!(f, "tree of {} tips, depth {}:", self.tips(), self.depth())?;
        for token in self.prefix().take(32) {
            match token {
                Token::Leaf(label) => write!(f, " {label}")?,
                Token::Node => write!(f, " *")?,
            }
        }
        Ok(())
    }
}

/// Takes a tree apart node by node, so that no drop is nested deeply.
impl Drop for Tree {
    fn drop(&mut self) {
        let mut pending = Vec::new();
        take_nodes(self, &mut pending);
        while let Some(mut tree) = pending.pop() {
            take_nodes(&mut tree, &mut pending);
        }
    }
}

/// Moves those parts of a tree that are nodes to the pending trees.
fn take_nodes(tree: &mut Tree, pending: &mut Vec<Tree>) {
    if let Tree::Node(left, right) = tree {
        for part in [left, right] {
            if let Tree::Node(..) = **part {
                pending.push(mem::replace(&mut **part, Tree::Leaf(0)));
            }
        }
    }
}

/// A refusal: its number and the position, which is a byte for the tree reader,
/// a block or a record for the rows of a program file.
#[derive(Clone, Copy, Debug, PartialEq, Eq)]
pub struct Refusal {
    pub number: u8,
    pub position: usize,
}

pub(crate) fn refuse<T>(number: u8, position: usize) -> Result<T, Refusal> {
    Err(Refusal { number, position })
}

/// "The tree reader takes the first tree of a buffer": the tree and its end,
/// which is the length of its tokens, or the refusal.
pub fn read_tree(input: &[u8]) -> Result<(Tree, usize), Refusal> {
    read_at(input, 0, 0)
}

/// "A tree's end is found by recursion on its two parts." `above` is the
/// number of nodes above the tree that begins at `place`.
fn read_at(input: &[u8], place: usize, above: usize) -> Result<(Tree, usize), Refusal> {
    if place == input.len() {
        return refuse(INPUT_ENDED, place);
    }
    match input[place] {
        LEAF_TAG => read_label(input, place + 1),
        NODE_TAG if above >= DEPTH_LIMIT => refuse(TOO_DEEP, place),
        NODE_TAG => {
            let (left, middle) = read_at(input, place + 1, above + 1)?;
            let (right, end) = read_at(input, middle, above + 1)?;
            Ok((Tree::node(left, right), end))
        }
        _ => refuse(NOT_A_TAG, place),
    }
}

/// "its label, 4 bytes, two's complement"; "for 15 the start of the tag or
/// label not whole".
fn read_label(input: &[u8], place: usize) -> Result<(Tree, usize), Refusal> {
    match input[place..] {
        [a, b, c, d, ..] => {
            let label = i32::from_le_bytes([a, b, c, d]);
            Ok((Tree::leaf(label), place + 4))
        }
        _ => refuse(INPUT_ENDED, place),
    }
}

/// N5: "its tip count and greatest depth (nodes above the deepest leaf, 0 for
/// a lone leaf)", "together with the tree's end", which is the number of its
/// bytes.
#[derive(Clone, Copy, Debug, PartialEq, Eq)]
pub struct Measures {
    pub bytes: usize,
    pub tips: usize,
    pub depth: usize,
}

/// End, tips and depth of the first tree, or the refusal, without building
/// the tree. `pending` holds, for every tree still to be read, the number of
/// nodes above it; the next one stands last. Tags, numbers and limit are
/// written out, so that nothing but the refusal is shared with `read_tree`.
pub fn tree_measures(input: &[u8]) -> Result<Measures, Refusal> {
    let (mut place, mut tips, mut depth) = (0, 0, 0);
    let mut pending = vec![0];
    while let Some(above) = pending.pop() {
        match input.get(place) {
            None => return refuse(15, place),
            Some(1) if input.len() - place < 5 => return refuse(15, place + 1),
            Some(1) => {
                tips += 1;
                depth = depth.max(above);
                place += 5;
            }
            Some(2) if above == 1024 => return refuse(20, place),
            Some(2) => {
                pending.extend([above + 1, above + 1]);
                place += 1;
            }
            Some(_) => return refuse(16, place),
        }
    }
    Ok(Measures {
        bytes: place,
        tips,
        depth,
    })
}

/// The end of the first tree, or the refusal.
pub fn tree_end(input: &[u8]) -> Result<usize, Refusal> {
    tree_measures(input).map(|measures| measures.bytes)
}

/// "hands back the tree's own bytes as a part of the lent input, empty on a
/// refusal"
pub fn tree_bytes(input: &[u8]) -> &[u8] {
    match tree_end(input) {
        Ok(end) => &input[..end],
        Err(_) => &input[..0],
    }
}

/// "a refusal, which a call beside it names with its place"; none for an
/// input that is read.
pub fn tree_refusal(input: &[u8]) -> Option<Refusal> {
    tree_end(input).err()
}
