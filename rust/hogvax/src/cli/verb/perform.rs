//! `perform CODE [FILE] --fuel N`: the stream run of code.

use std::ffi::OsString;

use hogvax::Ran;

use crate::exit_status::{Outcome, Trouble};
use crate::refused_sum;
use crate::run_over_tokens::RunVerb;
use crate::verb::Verb;

pub const VERB: Verb = Verb {
    name: "perform",
    operands: "CODE [FILE] --fuel N",
    options: "[--space M] [--most-space M] [--out FILE] [--partial]",
    summary: "what stream code gives on a token file",
    description: "\
Runs stream code over the token bytes of FILE. CODE holds its instructions, 8
bytes each; N is how many may be performed, up to 18446744073709551615. What
the run writes goes to standard output or into the file of --out. On standard
error it prints 'ended units U read R written W number X': the instructions
performed, the bytes read and written, and the number that the code gave, 0 if
it gave none.

If the run is refused, it writes no data and prints 'refused NUMBER POSITION
units U read R written W number 0' on standard error. The number is 14 to 19 or
21 and the position is the bytes read; 'hogvax why NUMBER' says more. With
--partial it still writes what the run wrote before the refusal.

With --space the output has room for M bytes. Without, it has room for 1 MiB or
twice the input, whichever is more; where that is too little the run is made
again with twice as much, up to the M bytes of --most-space, 1073741824 (1 GiB)
if that is left out.

CODE or FILE may be standard input, '-', but not both. CODE may hold any bytes;
an instruction that can't be performed is refused with 19.

Example:
  $ ./hogvax perform samples/code/sum.code samples/small.tokens --fuel 1000
  ended units 17 read 11 written 0 number 12
",
    run,
};

/// What comes after the longest code is never performed.
const PERFORM: RunVerb<Ran> = RunVerb {
    name: "CODE",
    longest: hogvax::LONGEST_CODE,
    fuel,
    call: hogvax::perform_in,
    data: |_, _, written| written,
    partial: true,
    tell_of_sum: refused_sum::in_code,
};

fn run(words: &[OsString]) -> Option<Outcome> {
    PERFORM.run(words)
}

/// Any code may be run, and it need not end.
fn fuel(given: Option<u64>) -> Result<u64, Trouble> {
    given.ok_or_else(|| {
        let message = "perform needs --fuel N, the most instructions to be performed";
        Trouble(message.to_owned())
    })
}
