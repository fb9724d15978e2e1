//! Verbs that write data: the data goes to standard output, or into the file
//! of `--out`, and the answer line to standard error.

use std::ffi::{OsStr, OsString};

use hogvax::Refused;

use crate::arguments::{Takes, Words};
use crate::exit_status::{Ended, Outcome};
use crate::input;
use crate::output;

/// The option that names a file for the data.
pub const OUT: &str = "--out";

/// Where the data goes.
pub fn destination<'a>(words: &Words<'a>) -> &'a OsStr {
    words.value(OUT).unwrap_or(OsStr::new("-"))
}

/// Writes the data, then the answer line.
pub fn hand_out(data: &[u8], out: &OsStr, line: &str) -> Outcome {
    output::write(out, data)?;
    output::tell(line)?;
    Ok(Ended::Done)
}

/// Reports a refusal. No data goes out, and no file is made or changed.
pub fn refuse(line: &str) -> Outcome {
    output::tell(line)?;
    Ok(Ended::Refused)
}

/// Writes the data that came before a refusal, then reports it.
pub fn refuse_after(data: &[u8], out: &OsStr, line: &str) -> Outcome {
    output::write(out, data)?;
    refuse(line)
}

/// A verb that turns the bytes of one file into others.
pub struct Conversion {
    pub convert: fn(&[u8]) -> Result<Vec<u8>, Refused>,
    /// Every input longer than this has the same refusal, whatever it holds.
    /// So one byte more is enough, and the rest is not read.
    pub longest_input: usize,
    /// What the answer line calls the data.
    pub name: &'static str,
}

impl Conversion {
    /// Takes the words that follow the verb: `[FILE] [--out FILE]`.
    pub fn run(&self, words: &[OsString]) -> Option<Outcome> {
        let words = Words::sort(words, &[(OUT, Takes::File)])?;
        let file = words.one_file()?;
        Some(self.convert_file(file, destination(&words)))
    }

    fn convert_file(&self, file: &OsStr, out: &OsStr) -> Outcome {
        let input = input::read_at_most(file, self.longest_input + 1)?;
        match (self.convert)(&input) {
            Ok(data) => hand_out(&data, out, &format!("{} {}", self.name, data.len())),
            Err(refused) => refuse(&refused.to_string()),
        }
    }
}
