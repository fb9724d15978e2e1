//! Safe calls of the proved static library, and programs and trees as text.
//!
//! What is said of the library's answers here is proved of the code that
//! gives them; the Rust code of these calls only passes slices and numbers on.
//! The modules [`assembly`], [`newick`] and [`draw`] are Rust, and tested.
//!
//! A call of the library may use up to 1 MiB of its thread's stack. Rust's
//! threads have 2 MiB; one made with less needs
//! [`stack_size`](std::thread::Builder::stack_size). This is tested, not proved.

#![deny(unsafe_code)]

use std::error::Error;
use std::fmt;

pub mod assembly;
pub mod draw;
#[allow(unsafe_code)]
mod ffi;
mod machine;
pub mod newick;
mod order;
mod place;
mod program;
mod run;
mod source;
mod token;
mod translate;
mod tree;

pub use machine::{perform, perform_in, perform_into, Ran, WorkSpace, LONGEST_CODE};
pub use order::{check, check_into, check_records, check_records_into};
pub use place::{Fault, Place};
pub use program::{gives_a_number, pack, pack_into, unpack, unpack_into};
pub use program::{LONGEST_FILE, LONGEST_RECORDS};
pub use run::{run, run_in, run_into};
pub use source::{source, source_in, source_into, Sourced};
pub use translate::{translate, translate_into};
pub use tree::{first_tree, tree, tree_into, Measures};

/// A refusal: its number in the table of refusals (`docs/REFERENCE.md`), and its position.
/// What that counts depends on the number: the tree reader's is a byte of the
/// input, a program file's is a block or a record, a stream run's is the bytes
/// read; a source run's own refusals are at 0, but 21, which is at a record.
#[derive(Clone, Copy, Debug, PartialEq, Eq)]
pub struct Refused {
    pub number: u32,
    pub position: u64,
}

impl fmt::Display for Refused {
    fn fmt(&self, f: &mut fmt::Formatter<'_>) -> fmt::Result {
        write!(f, "refused {} {}", self.number, self.position)
    }
}

impl Error for Refused {}

impl Refused {
    /// What a call reported by a number, 0 or the refusal's, and the position.
    fn told(number: u32, position: u64) -> Option<Refused> {
        (number != 0).then_some(Refused { number, position })
    }
}

/// How the line of a run begins: `ended`, or the refusal.
fn write_start(refused: Option<Refused>, f: &mut fmt::Formatter<'_>) -> fmt::Result {
    match refused {
        None => f.write_str("ended"),
        Some(refused) => write!(f, "{refused}"),
    }
}

/// The bytes that a call writes to a buffer of this length, which is always
/// enough.
fn written(
    longest: usize,
    call: impl FnOnce(&mut [u8], &mut [u64]) -> u32,
) -> Result<Vec<u8>, Refused> {
    let mut bytes = vec![0; longest];
    let length = length_or_refused(|answer| call(&mut bytes, answer))?;
    bytes.truncate(length);
    Ok(bytes)
}

/// Makes a call that answers by a number, 0 or the refusal's, and in two
/// slots: the refusal's position, and a length in bytes.
fn length_or_refused(call: impl FnOnce(&mut [u64]) -> u32) -> Result<usize, Refused> {
    let mut answer = [0; 2];
    let number = call(&mut answer);
    match Refused::told(number, answer[0]) {
        None => Ok(answer[1] as usize),
        Some(refused) => Err(refused),
    }
}

/// The Rust programs of this page are doc tests.
#[cfg(doctest)]
#[doc = include_str!("../../../docs/CALLING.md")]
struct Calling;
