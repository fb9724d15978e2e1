//! Codes with their answers by hand: document 01's worked cases, each effect
//! and each refusal of each opcode, and the limits.

use super::{Ran, Stop, TestCase};

mod addresses;
mod before;
mod calls;
pub mod computed;
mod effects;
mod limits;
pub mod programs;
mod refusals;
pub(crate) mod text;
mod unused;
mod worked;

/// A run and all that it answers.
#[derive(Clone, Debug)]
pub struct Known {
    /// What it shows.
    pub name: &'static str,
    pub case: TestCase,
    pub answer: Ran,
    /// The whole output buffer after the run.
    pub bytes: Vec<u8>,
    pub stop: Stop,
}

/// All of them; the first is document 01's Grow with fuel 25.
pub fn all() -> Vec<Known> {
    let tables = [
        worked::CASES,
        worked::OTHERS,
        effects::OF_WORDS,
        effects::OF_BRANCHES,
        effects::OF_TOKENS,
        calls::ARGUMENTS,
        calls::RETURNS,
        unused::FIELDS,
        refusals::MISSING,
        refusals::BELOW_THE_BASE,
        refusals::OF_THE_CODE,
        refusals::OF_SUMS,
        refusals::OF_THE_INPUT,
        refusals::OF_THE_OUTPUT,
        addresses::WITHOUT_INSTRUCTION,
        addresses::NOT_TAKEN,
        addresses::FROM_4128,
        limits::OF_WORDS,
        limits::OF_FRAMES,
        limits::OF_CALLS,
        before::FUEL,
        before::WORDS,
    ];
    tables.into_iter().flat_map(text::table).collect()
}
