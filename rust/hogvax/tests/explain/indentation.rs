//! Lines whose indentation says otherwise than the records.

use hogvax::assembly::{misplaced, show, Misplaced, Numbers};
use reference::lay_out;

use super::*;

fn misplaced_in(text: &str) -> Option<Misplaced> {
    misplaced(&read(text.as_bytes()).unwrap())
}

/// The record of the misplaced line, and the message.
fn told_in(text: &str) -> (usize, String) {
    let misplaced = misplaced_in(text).unwrap();
    (misplaced.record, misplaced.message)
}

/// The texts of every third program as they are shown.
fn texts(numbers: Numbers) -> impl Iterator<Item = String> {
    let programs = programs().iter().step_by(3);
    let records = programs.map(|checked| &checked.records);
    records.filter_map(move |records| show(&lay_out(records), numbers).ok())
}

#[test]
fn shown_programs_are_never_misplaced() {
    let mut count = 0;
    for text in texts(Numbers::Shown).chain(texts(Numbers::Bare)) {
        assert_eq!(misplaced_in(&text), None, "{text}");
        count += 1;
    }
    assert!(count >= 1_000, "{count}");
}

#[test]
fn programs_written_flat_are_never_misplaced() {
    let mut count = 0;
    for text in texts(Numbers::Bare) {
        let lines: Vec<&str> = text.lines().map(str::trim_start).collect();
        assert_eq!(misplaced_in(&lines.join("\n")), None);
        let lines: Vec<String> = lines.iter().map(|line| format!("    {line}")).collect();
        assert_eq!(misplaced_in(&lines.join("\r\n")), None);
        count += 1;
    }
    assert!(count >= 300, "{count}");
}

/// How many blanks a line begins with.
fn blanks(line: &str) -> usize {
    line.len() - line.trim_start().len()
}

fn is_function(line: &str) -> bool {
    line.starts_with("function ")
}

/// The record of a line of a shown text without numbers, where nodes follow
/// all functions.
fn record_of(lines: &[&str], line: usize) -> usize {
    let functions = lines.iter().filter(|line| is_function(line)).count();
    let nodes = lines[..line].iter().filter(|line| !is_function(line));
    1 + functions + nodes.count()
}

/// Whether a line is a second or later part: a line above begins in its column,
/// and none between them further left.
fn is_a_later_part(lines: &[&str], line: usize) -> bool {
    let column = blanks(lines[line]);
    let mut above = lines[..line].iter().rev().map(|line| blanks(line));
    above.find(|&above| above <= column) == Some(column)
}

/// The text with another indentation of one line.
fn moved(lines: &[&str], line: usize, column: usize) -> String {
    let moved = format!("{:column$}{}", "", lines[line].trim_start());
    let mut lines = lines.to_vec();
    lines[line] = &moved;
    lines.join("\n")
}

/// Whichever line is moved, and wherever to, it is reported if it is not the first
/// part of a record; a first part is, where it does not begin further right
/// than its whole.
#[test]
fn moved_lines_are_found() {
    let mut random = Random::new(232);
    let (mut later, mut first) = (0, 0);
    for text in texts(Numbers::Bare) {
        let lines: Vec<&str> = text.lines().collect();
        let line = random.below(lines.len());
        let own = blanks(lines[line]);
        let column = random.below(own + 8);
        // A function's expression may begin anywhere.
        if own <= 2 || column == own {
            continue;
        }
        let record = record_of(&lines, line);
        if is_a_later_part(&lines, line) {
            let misplaced = misplaced_in(&moved(&lines, line, column));
            assert_eq!(misplaced.map(|misplaced| misplaced.record), Some(record));
            later += 1;
        } else if column < own && lines.len() > 3 && blanks(lines[line - 1]) < own {
            let column = column.min(own - 2);
            let text = moved(&lines, line, column);
            if let Some(misplaced) = misplaced_in(&text) {
                assert_eq!(misplaced.record, record);
                first += 1;
            } else {
                assert!(own == 4 && column == 2, "{text}");
            }
        }
    }
    assert!(later >= 50 && first >= 20, "{later} {first}");
}

#[test]
fn a_missing_argument_is_seen_by_the_indentation() {
    let text = "\
function 0 takes tree 0 gives number
  Call 1 on 0
    Const 0
function 1 takes tree 0, number 0 gives number
  Case 0
    Var 0
    Add
      Call 1 on 1
      Call 1 on 2
        Var 0
";
    let message = "the indentation makes this a part of 'Add' (line 7), \
                   and it is the first argument of 'Call 1 on 1' (line 8)";
    assert_eq!(told_in(text), (9, message.to_owned()));
}

#[test]
fn a_surplus_argument_is_seen_by_the_indentation() {
    let text = "\
function 0 takes tree 0 gives number
  Case 0
    Var 0
    Add
      Call 0 on 1
        Const 1
      Call 0 on 2
";
    let message = "the indentation makes this a part of 'Call 0 on 1' (line 5), \
                   and it is the second number of 'Add' (line 4)";
    assert_eq!(told_in(text), (6, message.to_owned()));
}

#[test]
fn each_way_to_be_misplaced_has_its_message() {
    for (records, record, message) in [
        (
            ["  Add", "Const 1", "    Const 2", ""],
            3,
            "the indentation makes this a part of no record, \
             and it is the first number of 'Add' (line 2)",
        ),
        (
            ["  Add", "    Const 1", "  Const 2", ""],
            4,
            "the indentation makes this a part of no record, \
             and it is the second number of 'Add' (line 2)",
        ),
        (
            ["  Add", "      Const 1", "    Const 2", ""],
            4,
            "this is the second number of 'Add' (line 2), \
             and does not begin in the column of the first number (line 3)",
        ),
        (
            ["  Add", "    Const 1", "      Const 2", ""],
            4,
            "the indentation makes this a part of 'Const 1' (line 3), \
             and it is the second number of 'Add' (line 2)",
        ),
        (
            ["  Add", "    Const 1", "    Const 2", "    Const 3"],
            5,
            "the indentation makes this a part of 'Add' (line 2), \
             and it is left over after the expression",
        ),
        (
            ["  Add", "    Const 1", "    Const 2", "Const 3"],
            5,
            "this is left over after the expression, and begins further left",
        ),
    ] {
        let text = format!(
            "function 0 takes tree 0 gives number\n{}\n",
            records.join("\n")
        );
        assert_eq!(told_in(&text), (record, message.to_owned()));
    }
}

#[test]
fn the_first_misplaced_line_of_all_functions_is_told() {
    let text = "\
function 0 takes tree 0 gives number
Let
Const 1
Call 0 on 0
function 1 takes tree 0 gives number
  Let
  Const 1
    Call 0 on 0
function 2 takes tree 0 gives number
  Let
    Const 1
      Call 0 on 0
";
    let misplaced = misplaced_in(text).unwrap();
    assert_eq!(misplaced.record, 8);
}

/// What is left over begins where the expression does; numbers before the
/// lines, tabs and comments are no matter.
#[test]
fn right_indentation_is_not_told() {
    for text in [
        "",
        "# nothing\n",
        "function 0 takes tree 0 gives tree\n",
        "function 0 takes tree 0 gives tree\n      Leaf\n        Const 1\n",
        "function 0 takes tree 0 gives tree\n  Leaf\n    Const 1\n  Const 2\n",
        "function 0 takes tree 0 gives tree\n\tLeaf\n\t\tConst 1\n",
        "1 function 0 takes tree 0 gives tree\n2  Leaf # a\n# b\n3     Const 1\n",
        "function 0 takes tree 0 gives tree\n  Node\n    Leaf\n     Const 1\n    Call 0 on 0\n",
    ] {
        assert_eq!(misplaced_in(text), None, "{text}");
    }
}

/// How many arguments were meant can't be known.
#[test]
fn a_function_that_is_not_there_has_any_arguments() {
    let text = "\
function 0 takes tree 0 gives number
  Add
    Call 7 on 0
      Const 1
    Const 2
";
    assert_eq!(misplaced_in(text), None);
    let text = text.replace("Call 7", "Call 0");
    assert_eq!(told_in(&text).0, 4);
}
