//! Lines whose indentation says otherwise than the records.

use super::outline::{FunctionOutline, Node, Outline};
use super::read::Text;
use super::records::{Record, CALL};
use super::wording::{part_name, quoted};
use crate::Place;

/// A line that is indented as if it were a part of another record.
#[derive(Clone, Debug, PartialEq, Eq)]
pub struct Misplaced {
    /// The record of the line.
    pub record: usize,
    /// What the indentation says and what holds: one line that begins in lower
    /// case and has no full stop.
    pub message: String,
}

/// The first line of a text whose indentation says otherwise than the records.
/// Indentation is free, and such a text may be right; but it misleads whoever
/// reads it.
///
/// A part has to begin further right than its whole, and in the column of the
/// whole's other parts. A function whose records all begin in one column says
/// nothing about them.
///
/// ```
/// let text = b"\
/// function 0 takes tree 0 gives number
///   Case 0
///     Var 0
///     Add
///       Call 0 on 1
///     Call 0 on 2
/// ";
/// let text = hogvax::assembly::read(text).unwrap();
/// let misplaced = hogvax::assembly::misplaced(&text).unwrap();
/// assert_eq!(misplaced.record, 6);
/// let message = "the indentation makes this a part of 'Case 0' (line 2), \
///     and it is the second number of 'Add' (line 4)";
/// assert_eq!(misplaced.message, message);
/// ```
pub fn misplaced(text: &Text) -> Option<Misplaced> {
    let program = Outline::new(&text.records);
    let functions = program.functions.len();
    let mut all = program.functions.iter();
    all.find_map(|function| first_misplaced(&lines(function, text), functions))
}

/// The line of a record.
struct Line<'a> {
    node: &'a Node,
    place: Place,
}

/// The lines of a function's records.
fn lines<'a>(function: &'a FunctionOutline, text: &Text) -> Vec<Line<'a>> {
    let places = text.places.iter().skip(function.first);
    let lines = function.nodes.iter().zip(places);
    lines.map(|(node, &place)| Line { node, place }).collect()
}

/// The first line of a function, in a program with so many functions, that is
/// misplaced.
fn first_misplaced(lines: &[Line], functions: usize) -> Option<Misplaced> {
    let first = lines.first()?;
    let flat = |line: &Line| line.place.column == first.place.column;
    // How many arguments such a Call was meant to have isn't known.
    let calls_nothing = |line: &Line| {
        let Record { kind, b, .. } = line.node.record;
        kind == CALL && usize::from(b) >= functions
    };
    if lines.iter().all(flat) || lines.iter().any(calls_nothing) {
        return None;
    }
    let index = (0..lines.len()).find(|&index| is_misplaced(lines, index) == Some(true))?;
    Some(Misplaced {
        record: lines.get(index)?.node.number,
        message: message(lines, index)?,
    })
}

/// Where the whole of a line is among the lines, and which part the line is.
fn whole(lines: &[Line], index: usize) -> Option<(usize, usize)> {
    let (number, part) = lines.get(index)?.node.whole?;
    Some((number.checked_sub(lines.first()?.node.number)?, part))
}

/// A part begins further right than its whole, in the column of the first
/// part, which is the next line after the whole. What is left over after an
/// expression begins in the expression's column.
fn is_misplaced(lines: &[Line], index: usize) -> Option<bool> {
    let column = |index: usize| lines.get(index).map(|line| line.place.column);
    let own = column(index)?;
    Some(match whole(lines, index) {
        None => own != column(0)?,
        Some((whole, _)) => own <= column(whole)? || own != column(whole + 1)?,
    })
}

/// What the indentation of a misplaced line says, and what the line is.
fn message(lines: &[Line], index: usize) -> Option<String> {
    let line = lines.get(index)?;
    let mut above = lines.get(..index)?.iter().rev();
    // The indentation makes a line a part of this one.
    let above = above.find(|above| above.place.column < line.place.column);
    let Some((whole, part)) = whole(lines, index) else {
        return Some(match above {
            Some(above) => format!("{}, and it is left over after the expression", makes(above)),
            None => "this is left over after the expression, and begins further left".to_owned(),
        });
    };
    let first_part = lines.get(whole + 1)?;
    let whole = lines.get(whole)?;
    let record = whole.node.record;
    let is = format!("the {} of {}", part_name(record, part), told(whole));
    Some(match above {
        None => format!("the indentation makes this a part of no record, and it is {is}"),
        Some(above) if above.node.number != whole.node.number => {
            format!("{}, and it is {is}", makes(above))
        }
        Some(_) => {
            let (first, line) = (part_name(record, 0), first_part.place.line);
            format!("this is {is}, and does not begin in the column of the {first} (line {line})")
        }
    })
}

fn makes(whole: &Line) -> String {
    format!("the indentation makes this a part of {}", told(whole))
}

/// A record and its line.
fn told(line: &Line) -> String {
    format!("{} (line {})", quoted(line.node.record), line.place.line)
}
