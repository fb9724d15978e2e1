//! `check [FILE]`: the names, types and order of a program.

use std::ffi::OsString;

use hogvax::Refused;

use crate::arguments::Words;
use crate::exit_status::Outcome;
use crate::printed_answer;
use crate::verb::Verb;

pub const VERB: Verb = Verb {
    name: "check",
    operands: "[FILE]",
    options: "",
    summary: "whether a program takes its trees in order",
    description: "\
Reads a program file or the text of a program, and prints 'passed' if the
program names, types and orders its trees rightly, so that it can run over a
stream.

If not, it prints 'refused NUMBER POSITION'. The number is 1 to 7 if the file is
no program's, as in 'hogvax help unpack'; 9 if a name is not bound, 8 for a
wrong type, 10 for too many words, 11 if the trees are not taken in order, 12 if
too many are pending. From 4 on the position is a record, counted from 0, the
header; 'hogvax why NUMBER' says more.

If the program is a text, as in 'hogvax help assemble', it says on standard
error what is wrong there, with line and column. A text that can't be read is
'refused FILE:LINE:COLUMN:' and what is wrong.

Example:
  $ ./hogvax check samples/programs/grow.program
  passed
",
    run,
};

fn run(words: &[OsString]) -> Option<Outcome> {
    let file = Words::sort(words, &[])?.one_file()?;
    Some(printed_answer::print_of_program(file, check))
}

fn check(program: &[u8]) -> Result<String, Refused> {
    hogvax::check(program).map(|()| "passed\n".to_owned())
}
