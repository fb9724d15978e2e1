//! Drawings of trees as text.

mod path;
mod strokes;

use std::fmt;

use crate::token::{tokens, Token};
use crate::{tree, Measures, Refused};
use path::Path;
pub use strokes::Strokes;

/// A level has at least so many columns: with fewer, a fork would touch what
/// stands right of it.
const LEAST_STEP: usize = 2;

/// A drawing that is asked to be wider has so many columns: a line is held
/// whole.
const MOST_WIDTH: usize = 10_000;

/// A tree's drawing, which is written line by line. The root is at the left;
/// each tip has a line, with its label at the right. A fork stands between its
/// two parts: on a line between them if both are tips, else on the line of a
/// tip, the last one of its left part or the first one of its right part.
///
/// ```
/// use hogvax::draw::{Drawing, Strokes};
///
/// let trees = hogvax::newick::read(b"(1,(2,3));").unwrap();
/// let drawing = Drawing::new(&trees.tokens, 11, Strokes::Lines).unwrap();
/// let lines = [
///     " ┌─────── 1", //
///     "─┤   ┌─── 2",
///     " └───┤",
///     "     └─── 3",
/// ];
/// assert_eq!(drawing.to_string(), lines.join("\n") + "\n");
/// ```
#[derive(Clone, Debug)]
pub struct Drawing<'a> {
    tree: &'a [u8],
    /// The columns of a level.
    step: usize,
    /// The columns from the root on in which branches stand: those of all
    /// levels, and the few that are left over, for the tips' branches.
    columns: usize,
    strokes: Strokes,
}

impl Drawing<'_> {
    /// The drawing of the tree that begins these tokens. It fills the width, up
    /// to 10,000 columns. A level has at least 2 columns, so a tree that is too
    /// deep for the width is drawn wider. Or the refusal, as
    /// [`tree`](crate::tree) gives it.
    pub fn new(tokens: &[u8], width: usize, strokes: Strokes) -> Result<Drawing<'_>, Refused> {
        let measures = tree(tokens)?;
        Ok(Drawing::measured(tokens, measures, width, strokes))
    }

    /// As [`new`](Drawing::new), with the measures that [`tree`](crate::tree) gave
    /// for the same tokens, so the tree reader is not called again. Panics if
    /// `tokens` is shorter than `measures.bytes`.
    pub fn measured(
        tokens: &[u8],
        measures: Measures,
        width: usize,
        strokes: Strokes,
    ) -> Drawing<'_> {
        let Measures { bytes, depth, .. } = measures;
        let tree = &tokens[..bytes];
        // Of the other columns one is the root's own branch, and one is the
        // blank before a label.
        let others = longest_label(tree) + 2;
        let room = width.min(MOST_WIDTH).saturating_sub(others);
        let step = LEAST_STEP.max(room / depth.max(1));
        Drawing {
            tree,
            step,
            columns: room.max(depth * step),
            strokes,
        }
    }
}

/// The characters of a tree's longest label.
fn longest_label(tree: &[u8]) -> usize {
    let labels = tokens(tree).filter_map(|token| match token {
        Token::Leaf(label) => Some(characters(label)),
        Token::Node => None,
    });
    labels.max().unwrap_or(0)
}

/// How many characters a label has as text.
fn characters(label: i32) -> usize {
    let sign = usize::from(label < 0);
    let more_digits = label.unsigned_abs().checked_ilog10().unwrap_or(0);
    sign + 1 + more_digits as usize
}

impl fmt::Display for Drawing<'_> {
    fn fmt(&self, f: &mut fmt::Formatter<'_>) -> fmt::Result {
        let mut path = Path::default();
        let mut line = String::new();
        for token in tokens(self.tree) {
            let Token::Leaf(label) = token else {
                path.open();
                continue;
            };
            if let Some(fork) = path.fork_above_tip() {
                self.draw_strokes(&mut line, &mut path, Some(fork), false);
                writeln!(f, "{}", line.trim_end())?;
            }
            let fork = path.fork_beside_tip();
            self.draw_strokes(&mut line, &mut path, fork, true);
            writeln!(f, "{line} {label}")?;
            path.go_on();
        }
        Ok(())
    }
}

impl Drawing<'_> {
    /// Draws a line, without its label if it is a tip's. `fork` is the level of
    /// the fork that stands on it.
    fn draw_strokes(&self, line: &mut String, path: &mut Path, fork: Option<usize>, is_tip: bool) {
        let strokes = self.strokes;
        let tip = path.nodes.len();
        let stands = |level| fork == Some(level) || (is_tip && level == tip);
        line.clear();
        line.push(strokes.across(stands(0)));
        for (level, node) in path.nodes.iter_mut().enumerate() {
            // Whether the branch to the next level is on this line.
            let branch = stands(level + 1);
            line.push(match branch {
                true => strokes.corner(node.right),
                false if fork == Some(level) => strokes.fork(),
                false => strokes.down(node.stroke),
            });
            line.extend((1..self.step).map(|_| strokes.across(branch)));
            node.stroke ^= branch;
        }
        let columns = tip * self.step..self.columns;
        line.extend(columns.map(|_| strokes.across(is_tip)));
    }
}
