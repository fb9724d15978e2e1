//! A source run to be tested: all that decides its answer and its output.

use std::fmt;

use crate::machine::{FILLER, RETURN_WORDS, VALUE_WORDS};
use crate::message::shown;

use super::{source, Sourced};

/// Program file, input, fuel, and the lengths of the output and the work
/// space.
#[derive(Clone, PartialEq, Eq)]
pub struct SourceCase {
    pub file: Vec<u8>,
    pub input: Vec<u8>,
    pub fuel: u64,
    pub output: usize,
    pub values: usize,
    pub returns: usize,
}

impl SourceCase {
    /// With the full work space.
    pub fn new(file: &[u8], input: &[u8], fuel: u64, output: usize) -> SourceCase {
        SourceCase {
            file: file.to_vec(),
            input: input.to_vec(),
            fuel,
            output,
            values: VALUE_WORDS,
            returns: RETURN_WORDS,
        }
    }

    /// The answer, and the whole output after the run. Every byte of it is
    /// `FILLER` before.
    pub fn perform(&self) -> (Sourced, Vec<u8>) {
        let mut output = vec![FILLER; self.output];
        let sourced = source(
            &self.file,
            &self.input,
            self.fuel,
            &mut output,
            self.values,
            self.returns,
        );
        (sourced, output)
    }
}

impl fmt::Debug for SourceCase {
    fn fmt(&self, f: &mut fmt::Formatter<'_>) -> fmt::Result {
        let (output, fuel) = (self.output, self.fuel);
        let work = (self.values, self.returns);
        writeln!(f, "fuel {fuel}, output {output}, work {work:?}")?;
        writeln!(f, "file: {}", shown(&self.file))?;
        writeln!(f, "{}", shown(&self.input))
    }
}
