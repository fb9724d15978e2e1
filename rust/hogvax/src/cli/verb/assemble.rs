//! `assemble [FILE] [--out FILE]`: the program file of a text.

use std::ffi::{OsStr, OsString};

use crate::arguments::{Takes, Words};
use crate::data_output::{self, OUT};
use crate::exit_status::Outcome;
use crate::given_program::{self, Given};
use crate::verb::Verb;

pub const VERB: Verb = Verb {
    name: "assemble",
    operands: "[FILE]",
    options: "[--out FILE]",
    summary: "the program file of a program's text",
    description: "\
Reads the text of a program and writes its program file, in blocks of 512 bytes,
to standard output or into the file of --out. On standard error it prints 'file
BYTES', the length of the program file.

A text has a line for each function, after it one for each of its records, and
after each record its parts. '#' begins a comment:
  # Gives every tip its depth as its label.
  function 0 takes tree 0 gives tree
    Call 1 on 0
      Const 0
  function 1 takes tree 0, number 0 gives tree
    Case 0  # leaf part: number 1; node part: trees 1, 2
      Leaf
        Var 0
      Let   # body: number 1
        Add
          Var 0
          Const 1
        Node
          Call 1 on 1
            Var 1
          Call 1 on 2
            Var 1

The kinds of record, and their parts:
  Const NUMBER           none: the number itself
  Var NAME               none: the number of that name
  Add                    two numbers
  IfZero                 a number to be tested, the part for 0, the other part
  Let                    a number, which gets a name, and the body
  Leaf                   a number, the label
  Node                   two trees
  Case NAME              of that tree: the leaf part, the node part
  Call FUNCTION on NAME  of that function on that tree: its number arguments

A line may begin with its record's number, as 'hogvax show' prints it; a wrong
one is refused. Indentation is free, but a notice reports the first line that is
indented as if it were a part of another record. A text has at most 1048576
bytes.

If a line can't be read, it writes no file and prints 'refused
FILE:LINE:COLUMN:' and what is wrong there on standard error. If the records are
no program's, it prints 'refused NUMBER POSITION' as 'hogvax pack' does, and in
words what is wrong, with line and column. Names, types and the order of trees
are not looked at here, but by 'hogvax check'.

Example:
  $ ./hogvax assemble samples/texts/relabel-add-one.txt --out grow.program
  file 512
",
    run,
};

fn run(words: &[OsString]) -> Option<Outcome> {
    let words = Words::sort(words, &[(OUT, Takes::File)])?;
    let file = words.one_file()?;
    Some(assemble(file, data_output::destination(&words)))
}

fn assemble(file: &OsStr, out: &OsStr) -> Outcome {
    let program = match given_program::load_text(file)? {
        Given::Program(program) => program,
        Given::Unread(line) => return data_output::refuse(&line),
    };
    let ended = match &program.file {
        Ok(file) => data_output::hand_out(file, out, &format!("file {}", file.len())),
        Err(refused) => data_output::refuse(&refused.to_string()),
    }?;
    program.tell_of_text(program.file.as_ref().err().copied())?;
    Ok(ended)
}
