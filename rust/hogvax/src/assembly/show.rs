//! The text of a program file.

use super::lines::LONGEST_TEXT;
use super::outline::{Node, Outline};
use super::records::{function_line, CASE, LET};
use super::wording::counted;
use crate::{unpack, Refused};

/// Whether each line of a text begins with its record's number.
#[derive(Clone, Copy, Debug, PartialEq, Eq)]
pub enum Numbers {
    /// Each line does, and a comment before them shows the header.
    Shown,
    /// None does, so that lines may be added and taken out.
    Bare,
}

/// Comments begin in one column, up to this one. Lines that are too long for it
/// have their comments further right.
const COLUMNS: usize = 40;

/// The text of the program in this file, which [`read`](super::read) turns
/// into the same records again. Or the refusal of [`unpack`]. Names, types and
/// order need not be right.
///
/// Each record is indented by two blanks for each one that it is a part of. By
/// one blank, where the text would else be longer than a text may be.
///
/// ```
/// use hogvax::assembly::{read, show, Numbers};
///
/// let text = "\
/// function 0 takes tree 0 gives number
///   Case 0  # leaf part: number 0; node part: trees 1, 2
///     Var 0
///     Add
///       Call 0 on 1
///       Call 0 on 2
/// ";
/// let records = read(text.as_bytes()).unwrap().records;
/// let file = hogvax::pack(&records).unwrap();
/// assert_eq!(show(&file, Numbers::Bare).unwrap(), text);
/// ```
pub fn show(file: &[u8], numbers: Numbers) -> Result<String, Refused> {
    let outline = Outline::new(&unpack(file)?);
    let mut text = lay_out(&outline, numbers, 2);
    if text.len() > LONGEST_TEXT {
        text = lay_out(&outline, numbers, 1);
    }
    Ok(text)
}

/// The text of a program, each step of its indentation so many blanks wide.
fn lay_out(outline: &Outline, numbers: Numbers, step: usize) -> String {
    let lines = lines(outline, step);
    let (heading, digits) = match numbers {
        Numbers::Bare => (String::new(), None),
        Numbers::Shown => (heading(outline), Some(digits(lines.len()))),
    };
    let starts: Vec<String> = lines.iter().map(|line| line.start(digits)).collect();
    let column = comment_column(&lines, &starts);
    let mut text = heading;
    for (line, start) in lines.iter().zip(&starts) {
        text += start;
        if let Some(comment) = &line.comment {
            let blanks = column.saturating_sub(start.len()).max(2);
            text += &format!("{:blanks$}# {comment}", "");
        }
        text += "\n";
    }
    text
}

/// A line of a text, its number aside.
struct Line {
    record: usize,
    text: String,
    comment: Option<String>,
}

impl Line {
    /// All of it but the comment; its number has so many digits.
    fn start(&self, digits: Option<usize>) -> String {
        match digits {
            None => self.text.clone(),
            Some(digits) => format!("{:>digits$}  {}", self.record, self.text),
        }
    }
}

/// The lines of a program, function by function.
fn lines(outline: &Outline, step: usize) -> Vec<Line> {
    let mut lines = Vec::new();
    for (number, function) in outline.functions.iter().enumerate() {
        lines.push(Line {
            record: 1 + number,
            text: function_line(number, function.record),
            comment: None,
        });
        lines.extend(function.nodes.iter().map(|node| node_line(node, step)));
    }
    lines
}

fn node_line(node: &Node, step: usize) -> Line {
    let indent = step * (1 + node.depth);
    Line {
        record: node.number,
        text: format!("{:indent$}{}", "", node.record),
        comment: bound(node),
    }
}

/// The names that a node binds, and in which of its parts.
fn bound(node: &Node) -> Option<String> {
    let (number, left, right) = (node.numbers, node.trees, node.trees + 1);
    match node.record.kind {
        LET => Some(format!("body: number {number}")),
        CASE => Some(format!(
            "leaf part: number {number}; node part: trees {left}, {right}"
        )),
        _ => None,
    }
}

/// The column in which comments begin, but for those of long lines.
fn comment_column(lines: &[Line], starts: &[String]) -> usize {
    let commented = lines
        .iter()
        .zip(starts)
        .filter(|(line, _)| line.comment.is_some());
    let lengths = commented.map(|(_, start)| start.len() + 2);
    lengths
        .filter(|&length| length <= COLUMNS)
        .max()
        .unwrap_or(0)
}

/// The comment that shows the header, which has no line.
fn heading(outline: &Outline) -> String {
    let functions = outline.functions.len();
    let nodes = outline
        .functions
        .iter()
        .map(|function| function.nodes.len());
    let (functions, nodes) = (counted(functions, "function"), counted(nodes.sum(), "node"));
    format!("# record 0: edition 1, {functions}, {nodes}\n")
}

/// How many digits a number has.
fn digits(number: usize) -> usize {
    number.to_string().len()
}
