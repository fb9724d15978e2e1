//! Verbs that print their answer on standard output.

use std::ffi::OsStr;

use hogvax::Refused;

use crate::exit_status::{Ended, Outcome};
use crate::given_program::{self, Given};
use crate::output;

/// Prints a verb's answer, or the line that reports its refusal.
pub fn print(answer: Result<String, Refused>) -> Outcome {
    match answer {
        Ok(text) => {
            output::print(&text)?;
            Ok(Ended::Done)
        }
        Err(refused) => refuse(&refused.to_string()),
    }
}

fn refuse(line: &str) -> Outcome {
    output::print(&format!("{line}\n"))?;
    Ok(Ended::Refused)
}

/// Prints what a verb answers of the program file or text in this file. A
/// longer program file than the longest is 1 at 0, so one byte more is enough.
pub fn print_of_program(
    file: &OsStr,
    answer: impl FnOnce(&[u8]) -> Result<String, Refused>,
) -> Outcome {
    let program = match given_program::load(file, hogvax::LONGEST_FILE + 1)? {
        Given::Program(program) => program,
        Given::Unread(line) => return refuse(&line),
    };
    let answer = match &program.file {
        Ok(file) => answer(file),
        Err(refused) => Err(*refused),
    };
    let refused = answer.as_ref().err().copied();
    let ended = print(answer)?;
    program.tell_of_text(refused)?;
    Ok(ended)
}
