//! A run to be tested: all that decides its answer and its output.

use std::fmt;

use crate::message::shown;

use super::{instruction_at, perform, perform_traced, Ran, Trace};
use super::{INSTRUCTION_BYTES, RETURN_WORDS, VALUE_WORDS};

/// What every byte of an output is before the run.
pub const FILLER: u8 = 0xa5;

/// Code, input, fuel and the length of the output; the full work space is
/// lent.
#[derive(Clone, PartialEq, Eq)]
pub struct TestCase {
    pub code: Vec<u8>,
    pub input: Vec<u8>,
    pub fuel: u64,
    pub output: usize,
}

impl TestCase {
    /// The answer, and the whole output buffer after the run.
    pub fn perform(&self) -> (Ran, Vec<u8>) {
        let mut output = vec![FILLER; self.output];
        let (code, input) = (&self.code, &self.input);
        let ran = perform(
            code,
            input,
            self.fuel,
            &mut output,
            VALUE_WORDS,
            RETURN_WORDS,
        );
        (ran, output)
    }

    pub fn perform_traced(&self) -> (Ran, Trace, Vec<u8>) {
        let mut output = vec![FILLER; self.output];
        let (code, input) = (&self.code, &self.input);
        let (ran, trace) = perform_traced(
            code,
            input,
            self.fuel,
            &mut output,
            VALUE_WORDS,
            RETURN_WORDS,
        );
        (ran, trace, output)
    }

    pub fn with_fuel(&self, fuel: u64) -> TestCase {
        TestCase {
            fuel,
            ..self.clone()
        }
    }
}

/// The first instructions and the first bytes of the input: code may be too
/// long to be shown whole.
impl fmt::Debug for TestCase {
    fn fmt(&self, f: &mut fmt::Formatter<'_>) -> fmt::Result {
        let (code, fuel) = (self.code.len(), self.fuel);
        writeln!(f, "fuel {fuel}, output of {} bytes,", self.output)?;
        writeln!(f, "{}", shown(&self.input))?;
        writeln!(f, "code of {code} bytes:")?;
        for address in 0..(code / INSTRUCTION_BYTES).min(64) {
            if let Some(found) = instruction_at(&self.code, address) {
                let (operand, number) = (found.operand, found.number as i32);
                let (opcode, byte1) = (found.opcode, found.byte1);
                writeln!(f, "{address} {opcode} {byte1} {operand} {number}")?;
            }
        }
        Ok(())
    }
}
