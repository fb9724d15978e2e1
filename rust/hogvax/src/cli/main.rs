//! The command line: `hogvax VERB ...`.

#![forbid(unsafe_code)]

mod arguments;
mod data_output;
mod exit_status;
mod given_program;
mod input;
mod output;
mod output_space;
mod printed_answer;
mod progress;
mod refusal_table;
mod refused_sum;
mod run_answer;
mod run_over_tokens;
mod token_file;
mod verb;

use std::env;
use std::ffi::OsString;
use std::io::{self, Write};
use std::process::ExitCode;

use exit_status::{Ended, Trouble};

fn main() -> ExitCode {
    let words: Vec<OsString> = env::args_os().skip(1).collect();
    match verb::run(&words) {
        Ok(Ended::Done) => ExitCode::SUCCESS,
        Ok(Ended::Refused) => ExitCode::from(1),
        Err(Trouble(message)) => {
            // If standard error can't be written, the status still says so.
            let _ = writeln!(io::stderr(), "hogvax: {message}");
            ExitCode::from(2)
        }
    }
}
