//! `run PROGRAM [FILE]`: what a program gives.

use std::ffi::OsString;

use hogvax::Ran;

use crate::exit_status::Outcome;
use crate::refused_sum;
use crate::run_over_tokens::{result, RunVerb};
use crate::verb::Verb;

pub const VERB: Verb = Verb {
    name: "run",
    operands: "PROGRAM [FILE]",
    options: "[--fuel N] [--space M] [--most-space M] [--out FILE] [--partial]",
    summary: "what a program gives on a token file",
    description: "\
Checks a program, translates it and runs its code over the token bytes of FILE.
PROGRAM is a program file or a text, as in 'hogvax help assemble'. A tree that
the program gives goes to standard output or into the file of --out, as tokens;
a number goes there as text, on a line of its own. On standard error it prints
'ended units U read R written W number X': the instructions performed, the bytes
read and written, and the number, 0 if the program gives a tree. A run reads one
tree, which begins FILE; bytes after that tree are not looked at.

If the program or the run is refused, it writes no data and prints 'refused
NUMBER POSITION units U read R written W number 0' on standard error. The number
is 1 to 12 if the program is refused, as in 'hogvax help check', and all counts
are 0. It is 14 to 18 or 21 if the run is, and the position is then the bytes
read. 'hogvax why NUMBER' says more. With --partial it still writes what the run
wrote before the refusal.

What is wrong with a text is said on standard error, too, with line and column.
A text that can't be read is 'refused FILE:LINE:COLUMN:' and what is wrong.
Where a sum is out of range, refusal 21, its Add and its two numbers are named,
if 'hogvax tree' takes the tree.

N is how many instructions may be performed. Without --fuel it is the most that
there can be, 18446744073709551615: a program that is checked always ends, or is
refused.

With --space the output has room for M bytes. Without, it has room for 1 MiB or
twice the input, whichever is more; where that is too little the run is made
again with twice as much, up to the M bytes of --most-space, 1073741824 (1 GiB)
if that is left out.

PROGRAM or FILE may be standard input, '-', but not both.

Example:
  $ ./hogvax run samples/programs/sum.program samples/small.tokens
  12
  ended units 17 read 11 written 0 number 12
",
    run,
};

/// A longer file than the longest is 1 at 0, so one byte more is enough.
const RUN: RunVerb<Ran> = RunVerb {
    name: "PROGRAM",
    longest: hogvax::LONGEST_FILE + 1,
    fuel: |given| Ok(given.unwrap_or(u64::MAX)),
    call: hogvax::run_in,
    data: result,
    partial: true,
    tell_of_sum: refused_sum::in_stream_run,
};

fn run(words: &[OsString]) -> Option<Outcome> {
    RUN.run_program(words)
}
