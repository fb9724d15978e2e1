//! From tokens to Newick.

use std::fmt::Write;

use crate::token::{tokens, Token};
use crate::{tree, Refused};

/// The Newick text of trees that stand back to back, one tree a line; no text
/// if there is no tree. Or the first tree's refusal, as [`tree`](crate::tree)
/// gives it, its position counted from the start of `tokens`.
///
/// ```
/// let tokens = [2, 1, 5, 0, 0, 0, 1, 255, 255, 255, 255, 1, 7, 0, 0, 0];
/// assert_eq!(hogvax::newick::print(&tokens).unwrap(), "(5,-1);\n7;\n");
/// let refused = hogvax::newick::print(&tokens[..15]).unwrap_err();
/// assert_eq!(refused.to_string(), "refused 15 12");
/// ```
pub fn print(tokens: &[u8]) -> Result<String, Refused> {
    let mut text = String::new();
    let mut rest = tokens;
    while !rest.is_empty() {
        let start = (tokens.len() - rest.len()) as u64;
        let measures = tree(rest).map_err(|refused| Refused {
            position: start + refused.position,
            ..refused
        })?;
        let (tree, behind) = rest.split_at(measures.bytes);
        print_tree(tree, &mut text);
        rest = behind;
    }
    Ok(text)
}

fn print_tree(tree: &[u8], text: &mut String) {
    // For each fork that is not closed: whether its first branch is printed.
    let mut open: Vec<bool> = Vec::new();
    for token in tokens(tree) {
        let Token::Leaf(label) = token else {
            text.push('(');
            open.push(false);
            continue;
        };
        // Writing to a string does not fail.
        let _ = write!(text, "{label}");
        while open.last() == Some(&true) {
            open.pop();
            text.push(')');
        }
        if let Some(first) = open.last_mut() {
            *first = true;
            text.push(',');
        }
    }
    text.push_str(";\n");
}
