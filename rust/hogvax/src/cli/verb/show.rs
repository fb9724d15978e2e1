//! `show [FILE]`: the text of a program.

use std::ffi::OsString;

use hogvax::assembly::{self, Numbers};

use crate::arguments::{Takes, Words};
use crate::exit_status::Outcome;
use crate::printed_answer;
use crate::verb::Verb;

pub const VERB: Verb = Verb {
    name: "show",
    operands: "[FILE]",
    options: "[--bare]",
    summary: "a program as text, a line for each record",
    description: "\
Reads a program file and prints the program's text: the number of each record,
counted from 0, the header, and the record, indented by two blanks for each one
that it is a part of. A comment tells which names a Case or Let gives. 'hogvax
assemble' turns the text into the same file again, and 'hogvax help assemble'
describes it. With --bare the numbers and the comment on record 0 are left out,
for a text that is to be changed.

The file may be a text, too: its lines are then numbered and indented anew, and
its own comments are left out. The program may be one that 'hogvax check'
refuses with 8 to 12.

If the file is no program's, it prints 'refused NUMBER POSITION', as in 'hogvax
help unpack'; or if it is a text that can't be read, 'refused FILE:LINE:COLUMN:'
and what is wrong there.

Example:
  $ ./hogvax show samples/programs/sum.program
  # record 0: edition 1, 1 function, 5 nodes
  1  function 0 takes tree 0 gives number
  2    Case 0  # leaf part: number 0; node part: trees 1, 2
  3      Var 0
  4      Add
  5        Call 0 on 1
  6        Call 0 on 2
",
    run,
};

/// The option that leaves the numbers out.
const BARE: &str = "--bare";

fn run(words: &[OsString]) -> Option<Outcome> {
    let words = Words::sort(words, &[(BARE, Takes::Nothing)])?;
    let numbers = match words.has(BARE) {
        true => Numbers::Bare,
        false => Numbers::Shown,
    };
    let file = words.one_file()?;
    Some(printed_answer::print_of_program(file, |program| {
        assembly::show(program, numbers)
    }))
}
