//! The runner: a program file translated into a lent code buffer and run.

use crate::machine::{perform, Ran, RETURN_WORDS, VALUE_WORDS};
use crate::program::BUFFER_TOO_SHORT;
use crate::translate::translate;
use crate::tree::Refusal;

pub mod known;
mod run_case;

#[cfg(test)]
mod tests;

pub use run_case::RunCase;

/// The rows of the file, both passes, then 13 for each buffer; then the code
/// is written to the start of its buffer, where it stays, and run. The work
/// space has so many value words and so many return words.
pub fn run(
    file: &[u8],
    input: &[u8],
    fuel: u64,
    output: &mut [u8],
    code: &mut [u8],
    value_words: usize,
    return_words: usize,
) -> Ran {
    let bytes = match translate(file) {
        Ok(bytes) => bytes,
        Err(refusal) => return refused(refusal),
    };
    if code.len() < bytes.len() || value_words < VALUE_WORDS || return_words < RETURN_WORDS {
        return refused(Refusal {
            number: BUFFER_TOO_SHORT,
            position: 0,
        });
    }
    code[..bytes.len()].copy_from_slice(&bytes);
    perform(&bytes, input, fuel, output, value_words, return_words)
}

/// "A run refused before its first instruction or expression answers 0 in
/// every count."
fn refused(refusal: Refusal) -> Ran {
    Ran {
        refusal: Some(refusal),
        units: 0,
        read: 0,
        written: 0,
        number: 0,
    }
}
