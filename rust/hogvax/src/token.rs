//! The tokens of a tree, one after another.

/// What one leaf or node adds to the tokens of a tree.
#[derive(Clone, Copy, Debug, PartialEq, Eq)]
pub enum Token {
    Leaf(i32),
    Node,
}

/// The tokens of a tree, in their order: a node before its left and then its
/// right tree.
pub struct Tokens<'a> {
    rest: &'a [u8],
}

/// The tokens of these bytes, which are one tree's, as the tree reader hands
/// them back.
pub fn tokens(tree: &[u8]) -> Tokens<'_> {
    Tokens { rest: tree }
}

impl Iterator for Tokens<'_> {
    type Item = Token;

    fn next(&mut self) -> Option<Token> {
        let (token, rest) = match self.rest {
            [1, a, b, c, d, rest @ ..] => {
                let label = i32::from_le_bytes([*a, *b, *c, *d]);
                (Token::Leaf(label), rest)
            }
            [2, rest @ ..] => (Token::Node, rest),
            _ => return None,
        };
        self.rest = rest;
        Some(token)
    }
}
