//! A run of a program file to be tested: all that decides its answer, its
//! output and its code buffer.

use std::fmt;

use crate::machine::{Ran, FILLER, RETURN_WORDS, VALUE_WORDS};
use crate::message::shown;

use super::run;

/// Program file, input, fuel, and the lengths of the output, the code buffer
/// and the work space.
#[derive(Clone, PartialEq, Eq)]
pub struct RunCase {
    pub file: Vec<u8>,
    pub input: Vec<u8>,
    pub fuel: u64,
    pub output: usize,
    pub code: usize,
    pub value_words: usize,
    pub return_words: usize,
}

impl RunCase {
    /// With the full work space.
    pub fn new(file: &[u8], input: &[u8], fuel: u64, output: usize, code: usize) -> RunCase {
        RunCase {
            file: file.to_vec(),
            input: input.to_vec(),
            fuel,
            output,
            code,
            value_words: VALUE_WORDS,
            return_words: RETURN_WORDS,
        }
    }

    /// The answer, and the whole output and code buffers after the run. Every
    /// byte of both is `FILLER` before it.
    pub fn perform(&self) -> (Ran, Vec<u8>, Vec<u8>) {
        let mut output = vec![FILLER; self.output];
        let mut code = vec![FILLER; self.code];
        let ran = run(
            &self.file,
            &self.input,
            self.fuel,
            &mut output,
            &mut code,
            self.value_words,
            self.return_words,
        );
        (ran, output, code)
    }
}

impl fmt::Debug for RunCase {
    fn fmt(&self, f: &mut fmt::Formatter<'_>) -> fmt::Result {
        let (output, code, fuel) = (self.output, self.code, self.fuel);
        let work = (self.value_words, self.return_words);
        writeln!(
            f,
            "fuel {fuel}, output {output}, code {code}, work {work:?}"
        )?;
        writeln!(f, "file: {}", shown(&self.file))?;
        writeln!(f, "{}", shown(&self.input))
    }
}
