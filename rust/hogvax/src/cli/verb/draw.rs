//! `draw [FILE]`: a tree drawn as text.

use std::env;
use std::ffi::{OsStr, OsString};
use std::fs::File;
use std::io::{self, IsTerminal};
use std::process::{Command, Stdio};

use hogvax::draw::{Drawing, Strokes};

use crate::arguments::{self, Takes, Words};
use crate::exit_status::{Ended, Outcome, Trouble};
use crate::output;
use crate::token_file::Trees;
use crate::verb::Verb;

pub const VERB: Verb = Verb {
    name: "draw",
    operands: "[FILE]",
    options: "[--tree N] [--width M] [--ascii]",
    summary: "a tree of a token file, drawn as text",
    description: "\
Reads token bytes, any number of trees back to back, and draws tree N, or the
first one: the root at the left, the tips in order at the right, each on a line
with its label. With --ascii the drawing has the characters + - and | in place
of box-drawing ones. Bytes after that tree are not looked at.

The drawing fills M columns, at most 10000. Without --width it fills those of
the terminal: COLUMNS of the environment, else what 'stty size' says where
standard output is a terminal, else 80. A level of the tree has at least 2
columns, so a tree that is too deep for them is drawn wider.

If that tree, or one before it, is refused, it draws none and prints 'refused
NUMBER POSITION', where the number is 15, 16 or 20 and the position is a byte,
counted from 0 at the start of the file; 'hogvax why NUMBER' says more.

Example:
  $ ./hogvax draw samples/clades.tokens --width 18
      ┌─────────── 1
   ┌──┤  ┌──────── 2
   │  └──┤  ┌───── 3
   │     └──┤  ┌── 4
   │        └──┤
  ─┤           └── 5
   │     ┌──────── 6
   │  ┌──┤
   └──┤  └──────── 7
      │  ┌──────── 8
      └──┤
         └──────── 9
",
    run,
};

/// The option that says which tree is drawn.
const TREE: &str = "--tree";

/// The option that says how many columns there are.
const WIDTH: &str = "--width";

/// The option that asks for ASCII characters.
const ASCII: &str = "--ascii";

/// The columns where no terminal says how many it has.
const COLUMNS: usize = 80;

fn run(words: &[OsString]) -> Option<Outcome> {
    let options = [
        (TREE, Takes::Number),
        (WIDTH, Takes::Number),
        (ASCII, Takes::Nothing),
    ];
    let words = Words::sort(words, &options)?;
    let file = words.one_file()?;
    Some(draw(file, &words))
}

fn draw(file: &OsStr, words: &Words) -> Outcome {
    let number = words.number(TREE)?.unwrap_or(1);
    if number == 0 {
        return Err(Trouble(format!("{TREE} takes a number from 1 up, not 0")));
    }
    let width = match words.number(WIDTH)? {
        Some(width) => usize::try_from(width).unwrap_or(usize::MAX),
        None => terminal_width(),
    };
    let strokes = match words.has(ASCII) {
        true => Strokes::Ascii,
        false => Strokes::Lines,
    };
    let mut trees = Trees::open(file)?;
    match trees.tree(number)? {
        Ok((tokens, measures)) => {
            let drawing = Drawing::measured(tokens, measures, width, strokes);
            output::print_long(&drawing)?;
            Ok(Ended::Done)
        }
        Err(refused) => trees.print(Err(refused)),
    }
}

/// The columns of the terminal.
fn terminal_width() -> usize {
    let told = env::var("COLUMNS").ok();
    let told = told.and_then(|word| columns(&word));
    told.or_else(asked_columns).unwrap_or(COLUMNS)
}

/// The columns that the terminal has by its own account, if standard output is
/// one.
fn asked_columns() -> Option<usize> {
    if !io::stdout().is_terminal() {
        return None;
    }
    let mut stty = Command::new("stty");
    stty.arg("size").stdin(File::open("/dev/tty").ok()?);
    let output = stty.stderr(Stdio::null()).output().ok()?;
    columns_of_size(&output.stdout)
}

/// The columns of what `stty size` prints: the rows, and the columns.
fn columns_of_size(size: &[u8]) -> Option<usize> {
    let size = std::str::from_utf8(size).ok()?;
    columns(size.split_whitespace().nth(1)?)
}

/// A number of columns, if this word is a positive one.
fn columns(word: &str) -> Option<usize> {
    let digits = Some(word).filter(|word| arguments::is_decimal(word));
    let number = digits?.parse().ok();
    number.filter(|&number| number > 0)
}

#[cfg(test)]
mod tests {
    use super::*;

    #[test]
    fn columns_are_a_positive_number() {
        for (word, number) in [("1", 1), ("80", 80), ("0120", 120)] {
            assert_eq!(columns(word), Some(number));
        }
        for word in ["", "0", "00", "-1", "+80", " 80", "80 ", "8e1", "wide"] {
            assert_eq!(columns(word), None, "{word}");
        }
        assert_eq!(columns("99999999999999999999999"), None);
    }

    #[test]
    fn the_size_of_a_terminal_has_its_columns_second() {
        assert_eq!(columns_of_size(b"24 132\n"), Some(132));
        for size in [&b""[..], b"\n", b"24\n", b"0 0\n", b"24 x\n", b"\xff 80\n"] {
            assert_eq!(columns_of_size(size), None);
        }
    }
}
