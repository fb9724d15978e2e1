//! The translator beside the reference implementation.

mod buffers;
#[path = "../shared/conversion.rs"]
mod conversion;
mod generated;
mod known;
mod rows;
mod templates;

use conversion::{number, refused, Answer, Call, Checked};
use reference::{lay_out, Program};

/// 13 comes of short buffers alone.
const TRANSLATE: Call = Call {
    safe: hogvax::translate,
    into: hogvax::translate_into,
    back: None,
    reference: reference::translate,
    answers: &[0, 1, 2, 3, 4, 5, 6, 7, 8, 9, 10, 11, 12, 13],
    long: 34_000,
};

/// The answers that a file in prefix form can have.
const OF_PROGRAMS: [u32; 7] = [0, 8, 9, 10, 11, 12, 13];

fn file(program: &Program) -> Vec<u8> {
    lay_out(&program.records())
}
