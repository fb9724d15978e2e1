//! `tree [FILE]`: the length, tips and depth of the first tree.

use std::ffi::{OsStr, OsString};

use hogvax::Measures;

use crate::arguments::Words;
use crate::exit_status::Outcome;
use crate::token_file::Trees;
use crate::verb::Verb;

pub const VERB: Verb = Verb {
    name: "tree",
    operands: "[FILE]",
    options: "",
    summary: "length, tips and depth of a file's first tree",
    description: "\
Reads token bytes and prints 'tree BYTES tips T depth D' of the tree that begins
them: its length, its tips, and its depth, the forks above its deepest tip, 0
for a tip alone. BYTES is 6 times T, less 1. Bytes after that tree are not
looked at. If no tree begins them, it prints 'refused NUMBER POSITION', where
the number is 15, 16 or 20 and the position is a byte, counted from 0; 'hogvax
why NUMBER' says more.

Example:
  $ ./hogvax tree samples/small.tokens
  tree 11 tips 2 depth 1
",
    run,
};

fn run(words: &[OsString]) -> Option<Outcome> {
    Words::sort(words, &[])?.one_file().map(tree)
}

fn tree(file: &OsStr) -> Outcome {
    let mut trees = Trees::open(file)?;
    let answer = trees.first()?;
    trees.print(answer.map(|measures| line(&measures)))
}

fn line(measures: &Measures) -> String {
    let Measures { bytes, tips, depth } = measures;
    format!("tree {bytes} tips {tips} depth {depth}\n")
}
