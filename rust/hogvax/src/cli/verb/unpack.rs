//! `unpack [FILE] [--out FILE]`: the records of a program file.

use std::ffi::OsString;

use crate::data_output::Conversion;
use crate::exit_status::Outcome;
use crate::verb::Verb;

pub const VERB: Verb = Verb {
    name: "unpack",
    operands: "[FILE]",
    options: "[--out FILE]",
    summary: "the records of a program file",
    description: "\
Reads a program file and writes its records, 8 bytes each, to standard output
or into the file of --out. On standard error it prints 'records BYTES', the
length of all records together.

If the file is no program's, it writes no records and prints 'refused NUMBER
POSITION' on standard error. The number is 1 to 7. The position is 0 for 1, a
block for 2 and 3, a record for 4 to 7, each counted from 0 at the start of the
file; 'hogvax why NUMBER' says more.

Example:
  $ ./hogvax unpack samples/programs/grow.program --out grow.records
  records 80
",
    run,
};

/// A longer input is 1 at 0.
const UNPACK: Conversion = Conversion {
    convert: hogvax::unpack,
    longest_input: hogvax::LONGEST_FILE,
    name: "records",
};

fn run(words: &[OsString]) -> Option<Outcome> {
    UNPACK.run(words)
}
