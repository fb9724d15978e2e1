//! `pack [FILE] [--out FILE]`: the program file of records.

use std::ffi::OsString;

use crate::data_output::Conversion;
use crate::exit_status::Outcome;
use crate::verb::Verb;

pub const VERB: Verb = Verb {
    name: "pack",
    operands: "[FILE]",
    options: "[--out FILE]",
    summary: "the program file of a program's records",
    description: "\
Reads the records of a program, 8 bytes each, and writes its program file, in
blocks of 512 bytes, to standard output or into the file of --out. On standard
error it prints 'file BYTES', the length of the program file.

If the records are no program's, it writes no file and prints 'refused NUMBER
POSITION' on standard error. The number is 4, 5, 6 or 7 and the position is a
record, counted from 0, the header; 'hogvax why NUMBER' says more.

Example:
  $ ./hogvax pack samples/programs/grow.records --out grow.program
  file 512
",
    run,
};

/// A longer input is 4 at record 0: the header's own limits allow no more
/// records, and a length other than theirs is 4 too.
const PACK: Conversion = Conversion {
    convert: hogvax::pack,
    longest_input: hogvax::LONGEST_RECORDS,
    name: "file",
};

fn run(words: &[OsString]) -> Option<Outcome> {
    PACK.run(words)
}
