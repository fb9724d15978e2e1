//! The stream run: any buffer run as code over an input, with fuel, into an
//! output.

use crate::sum::EndSums;
use crate::tree::Refusal;

mod instruction;
pub mod known;
mod mark;
mod run;
mod test_case;

#[cfg(test)]
mod tests;

pub use instruction::{assemble, instruction_at, mnemonic, opcode, Instruction};
pub use instruction::{INSTRUCTION_BYTES, INSTRUCTION_LIMIT};
pub use mark::{Cause, Mark, Stop, Trace};
pub use test_case::{TestCase, FILLER};

use run::Machine;

/// "Both runs lend 16,384 value words"; "surplus above 16,384".
pub const VALUE_WORDS: usize = 16_384;

/// "18 a call with 1,024 open (the first frame counts)"
pub const OPEN_LIMIT: usize = 1_024;

/// "1,024 return places of two words"
pub const RETURN_WORDS: usize = 2_048;

/// "Its answer gives units, bytes read, bytes written, and the number (0 for a
/// tree or a refusal)." No refusal where the run ended.
#[derive(Clone, Copy, Debug, PartialEq, Eq)]
pub struct Ran {
    pub refusal: Option<Refusal>,
    pub units: u64,
    pub read: usize,
    pub written: usize,
    pub number: i32,
}

/// Runs code, the work space having so many value words and so many return
/// words.
pub fn perform(
    code: &[u8],
    input: &[u8],
    fuel: u64,
    output: &mut [u8],
    value_words: usize,
    return_words: usize,
) -> Ran {
    if too_short(value_words, return_words) {
        return refused_13().0;
    }
    let mut machine = Machine::new(code, input, output);
    let stop = machine.run(fuel, |_| ());
    machine.answer(stop)
}

/// The same run, and its trace.
pub fn perform_traced(
    code: &[u8],
    input: &[u8],
    fuel: u64,
    output: &mut [u8],
    value_words: usize,
    return_words: usize,
) -> (Ran, Trace) {
    if too_short(value_words, return_words) {
        return refused_13();
    }
    let mut machine = Machine::new(code, input, output);
    let mut addresses = Vec::new();
    let stop = machine.run(fuel, |address| addresses.push(address));
    (machine.answer(stop), machine.trace(stop, addresses))
}

/// "The runs test 13 before tree or fuel."
fn too_short(value_words: usize, return_words: usize) -> bool {
    value_words < VALUE_WORDS || return_words < RETURN_WORDS
}

/// "A run refused before its first instruction or expression answers 0 in
/// every count."
fn refused_13() -> (Ran, Trace) {
    let ran = Ran {
        refusal: Some(Refusal {
            number: 13,
            position: 0,
        }),
        units: 0,
        read: 0,
        written: 0,
        number: 0,
    };
    let trace = Trace {
        addresses: Vec::new(),
        address: 0,
        words: 0,
        open: 0,
        end_sums: EndSums::default(),
        stop: Stop {
            mark: Mark::alone(Cause::WorkTooShort),
            hidden: None,
        },
    };
    (ran, trace)
}
