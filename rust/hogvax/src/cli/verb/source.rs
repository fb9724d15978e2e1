//! `source PROGRAM [FILE]`: what a program means on a tree.

use std::ffi::OsString;

use hogvax::Sourced;

use crate::exit_status::Outcome;
use crate::refused_sum;
use crate::run_over_tokens::{result, RunVerb};
use crate::verb::Verb;

pub const VERB: Verb = Verb {
    name: "source",
    operands: "PROGRAM [FILE]",
    options: "[--fuel N] [--space M] [--most-space M] [--out FILE]",
    summary: "what a program means, its trees in order or not",
    description: "\
Evaluates a program on the tree that begins FILE, expression by expression, and
translates nothing. PROGRAM is a program file or a text, as in 'hogvax help
assemble'. The program need not take its trees in order, so it may be one that
'hogvax check' refuses with 11 or 12. A tree that it gives goes to standard
output or into the file of --out, as tokens; a number goes there as text, on a
line of its own. On standard error it prints 'ended begun B written W number X
tips T depth D', on one line: the expressions begun, the bytes written, the
number, 0 if the program gives a tree, and the tips and the depth of the tree in
FILE, as in 'hogvax help tree'. Bytes after that tree are not looked at.

If the program, the input or the run is refused, it writes no data and prints
'refused NUMBER POSITION begun B written 0 number 0 tips 0 depth 0' on standard
error. The number is 1 to 10 if the program is refused, as in 'hogvax help
check', and 15, 16 or 20 if no tree begins FILE, as in 'hogvax help tree'; B is
then 0. It is 14 if the fuel is used up, 18 if too many calls are open and 17 if
the output is shorter than the result, and the position is then 0. It is 21 if a
sum is out of range, at the record of the Add. 'hogvax why NUMBER' says more.

What is wrong with a text is said on standard error, too, with line and column.
A text that can't be read is 'refused FILE:LINE:COLUMN:' and what is wrong.
Where a sum is out of range, its two numbers are named as well.

N is how many expressions may be begun, 1000000000 if --fuel is left out: a
program that takes a tree more than once may begin more than any time allows.

With --space the output has room for M bytes. Without, it has room for 1 MiB or
twice the input, whichever is more; where that is too little the run is made
again with twice as much, up to the M bytes of --most-space, 1073741824 (1 GiB)
if that is left out.

PROGRAM or FILE may be standard input, '-', but not both.

Example:
  $ ./hogvax source samples/programs/swap.program samples/small.tokens --out out
  ended begun 10 written 11 number 0 tips 2 depth 1
",
    run,
};

/// The fuel, where none is given.
const FUEL: u64 = 1_000_000_000;

/// A longer file than the longest is 1 at 0, so one byte more is enough.
const SOURCE: RunVerb<Sourced> = RunVerb {
    name: "PROGRAM",
    longest: hogvax::LONGEST_FILE + 1,
    fuel: |given| Ok(given.unwrap_or(FUEL)),
    call: hogvax::source_in,
    data: result,
    partial: false,
    tell_of_sum: refused_sum::in_source_run,
};

fn run(words: &[OsString]) -> Option<Outcome> {
    SOURCE.run_program(words)
}

#[cfg(test)]
mod tests {
    use super::*;

    #[test]
    fn fuel_is_a_billion_if_it_is_left_out() {
        assert_eq!((SOURCE.fuel)(None).ok(), Some(1_000_000_000));
        assert_eq!((SOURCE.fuel)(Some(0)).ok(), Some(0));
        assert_eq!((SOURCE.fuel)(Some(u64::MAX)).ok(), Some(u64::MAX));
    }
}
