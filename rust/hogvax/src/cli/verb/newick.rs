//! `newick [FILE]`: trees as Newick text.

use std::ffi::{OsStr, OsString};

use crate::arguments::Words;
use crate::exit_status::Outcome;
use crate::token_file::Trees;
use crate::verb::Verb;

pub const VERB: Verb = Verb {
    name: "newick",
    operands: "[FILE]",
    options: "",
    summary: "the trees of a token file as Newick text",
    description: "\
Reads token bytes, any number of trees back to back, and prints each tree on a
line as Newick text: '(A,B)' for a node with the trees A and B, its label for a
leaf, and ';' at the end. 'hogvax tokens' goes the other way.

If a tree is refused, it prints no tree and 'refused NUMBER POSITION', where the
number is 15, 16 or 20 and the position is a byte, counted from 0 at the start
of the file; 'hogvax why NUMBER' says more.

Example:
  $ ./hogvax newick samples/clades.tokens
  ((1,(2,(3,(4,5)))),((6,7),(8,9)));
",
    run,
};

fn run(words: &[OsString]) -> Option<Outcome> {
    Words::sort(words, &[])?.one_file().map(newick)
}

fn newick(file: &OsStr) -> Outcome {
    let mut trees = Trees::open(file)?;
    let text = trees.all()?.and_then(hogvax::newick::print);
    trees.print(text)
}
