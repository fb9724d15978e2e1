//! `listing [FILE]`: the code of a program, line by line.

use std::ffi::OsString;
use std::fmt::Write;

use hogvax::Refused;

use crate::arguments::Words;
use crate::exit_status::Outcome;
use crate::printed_answer;
use crate::verb::Verb;

pub const VERB: Verb = Verb {
    name: "listing",
    operands: "[FILE]",
    options: "",
    summary: "the stream code of a program, line by line",
    description: "\
Reads a program file or the text of a program, as in 'hogvax help assemble', and
prints the program's code: 'code COUNT', then a line for each instruction, which
has its address, opcode, byte 1, operand and number. All are decimal, and the
number is signed.

If the program can't be translated, it prints 'refused NUMBER POSITION', with
the same number and position as 'hogvax check'. A text is refused as there.

Example:
  $ ./hogvax listing samples/programs/sum.program
  code 9
  0 10 0 5 0
  1 11 0 0 0
  2 1 0 0 0
  3 5 0 0 0
  4 4 0 8 0
  5 12 0 0 0
  6 12 0 0 0
  7 2 0 0 0
  8 13 1 0 0
",
    run,
};

fn run(words: &[OsString]) -> Option<Outcome> {
    let file = Words::sort(words, &[])?.one_file()?;
    Some(printed_answer::print_of_program(file, listing))
}

fn listing(program: &[u8]) -> Result<String, Refused> {
    hogvax::translate(program).map(|code| listed(&code))
}

/// The listing of code, 8 bytes an instruction.
fn listed(code: &[u8]) -> String {
    let instructions = code.chunks_exact(8);
    let mut lines = format!("code {}\n", instructions.len());
    for (address, bytes) in instructions.enumerate() {
        let (opcode, byte_1) = (bytes[0], bytes[1]);
        let operand = u16::from_le_bytes([bytes[2], bytes[3]]);
        let number = i32::from_le_bytes([bytes[4], bytes[5], bytes[6], bytes[7]]);
        // Writing to a string does not fail.
        let _ = writeln!(lines, "{address} {opcode} {byte_1} {operand} {number}");
    }
    lines
}
