//! `tokens [FILE] [--out FILE]`: the tokens of Newick text.

use std::ffi::{OsStr, OsString};

use hogvax::newick::{self, Trees};

use crate::arguments::{Takes, Words};
use crate::data_output::{self, OUT};
use crate::exit_status::Outcome;
use crate::input::{self, Input};
use crate::output;
use crate::progress::Progress;
use crate::verb::Verb;

pub const VERB: Verb = Verb {
    name: "tokens",
    operands: "[FILE]",
    options: "[--out FILE]",
    summary: "the tokens of trees in Newick text",
    description: "\
Reads Newick text, any number of trees, each closed by ';', and writes their
tokens back to back to standard output or into the file of --out. On standard
error it prints 'trees COUNT bytes BYTES', how many trees and bytes these are.

A tip is a whole number, -2147483648 to 2147483647, bare or in single quotes. A
fork is '(A,B)', with exactly two branches, and stands under at most 1,023
others. Names of forks and branch lengths, as in '(1:0.5,2:0.5)95:1e-3', are
skipped, and a notice says how many there were. Whitespace and comments in
brackets may stand anywhere between these.

If the text is not so, it writes no data and prints 'refused FILE:LINE:COLUMN:'
and what is wrong there on standard error. Lines and columns count from 1, and a
column is a character.

Example:
  $ ./hogvax tokens samples/trees/small.nwk --out small.tokens
  trees 1 bytes 47
",
    run,
};

fn run(words: &[OsString]) -> Option<Outcome> {
    let words = Words::sort(words, &[(OUT, Takes::File)])?;
    let file = words.one_file()?;
    Some(tokens(file, data_output::destination(&words)))
}

fn tokens(file: &OsStr, out: &OsStr) -> Outcome {
    let mut bytes = Input::open(file)?.bytes();
    let reading = Progress::of("reading Newick text");
    let read = newick::read_bytes(&mut bytes);
    drop(reading);
    bytes.check()?;
    match read {
        Ok(trees) => hand_out(&trees, out),
        Err(fault) => data_output::refuse(&format!("refused {}:{fault}", input::name(file))),
    }
}

/// Writes the tokens, then the answer and what was skipped.
fn hand_out(trees: &Trees, out: &OsStr) -> Outcome {
    let (count, length) = (trees.trees, trees.tokens.len());
    let outcome =
        data_output::hand_out(&trees.tokens, out, &format!("trees {count} bytes {length}"))?;
    for (count, one, more) in [
        (trees.lengths, "branch length", "branch lengths"),
        (trees.names, "name of a fork", "names of forks"),
    ] {
        match count {
            0 => {}
            1 => output::tell(&format!("notice: 1 {one} skipped"))?,
            _ => output::tell(&format!("notice: {count} {more} skipped"))?,
        }
    }
    Ok(outcome)
}
