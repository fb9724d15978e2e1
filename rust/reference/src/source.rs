//! The source run: a program file evaluated on an input, with fuel, into an
//! output.

use std::fmt;

use crate::evaluate::with_stack;
use crate::machine::{OPEN_LIMIT, RETURN_WORDS, VALUE_WORDS};
use crate::order::{pass_one, Found};
use crate::program::{read_file, Program, BUFFER_TOO_SHORT};
use crate::tree::{read_tree, refuse, Refusal};

#[cfg(test)]
pub(crate) mod explicit_stack;
pub mod known;
mod prepared;
mod source_case;

#[cfg(test)]
mod tests;

pub use prepared::{prepared, Prepared};
pub use source_case::SourceCase;

/// "14 fuel used up"
pub const FUEL_USED_UP: u8 = 14;

/// "17 output shorter than the result, after evaluation"
pub const OUTPUT_TOO_SHORT: u8 = 17;

/// "18 a call with 1,024 open (the first frame counts)"
pub const CALLS_OPEN: u8 = 18;

/// "The source run's gives expressions begun, bytes written and the number;
/// refused, the last two are 0." No refusal where the run ended. N5: "The
/// source run's answer passes both on", tips and depth of the tree evaluated.
#[derive(Clone, Copy, Debug, PartialEq, Eq)]
pub struct Sourced {
    pub refused: Option<Refusal>,
    pub begun: u64,
    pub written: usize,
    pub number: i32,
    pub tips: usize,
    pub depth: usize,
}

impl Sourced {
    /// N5: "A refusal of the reader or the source run gives 0 for both."
    fn refused(refusal: Refusal, begun: u64) -> Sourced {
        Sourced {
            refused: Some(refusal),
            begun,
            written: 0,
            number: 0,
            tips: 0,
            depth: 0,
        }
    }
}

/// `ended` or `refused NUMBER POSITION`, then the counts and the number, tips
/// and depth.
impl fmt::Display for Sourced {
    fn fmt(&self, f: &mut fmt::Formatter<'_>) -> fmt::Result {
        match self.refused {
            None => write!(f, "ended")?,
            Some(Refusal { number, position }) => write!(f, "refused {number} {position}")?,
        }
        let (begun, written, number) = (self.begun, self.written, self.number);
        write!(f, " begun {begun} written {written} number {number}")?;
        write!(f, " tips {} depth {}", self.tips, self.depth)
    }
}

/// The rows of the file, pass one, then 13, the tree reader, the evaluation
/// with its fuel, and 17 last. The work space has so many value words and so
/// many return words. "A refusal leaves every output buffer untouched"; "A
/// run refused before its first instruction or expression answers 0 in every
/// count."
pub fn source(
    file: &[u8],
    input: &[u8],
    fuel: u64,
    output: &mut [u8],
    values: usize,
    returns: usize,
) -> Sourced {
    let read = || {
        let program = read_program(file)?;
        enough_space(values, returns)?;
        let (tree, _) = read_tree(input)?;
        Ok((program, tree))
    };
    match read() {
        Err(refusal) => Sourced::refused(refusal, 0),
        Ok((program, tree)) => with_stack(&program, OPEN_LIMIT, fuel, || {
            Prepared::new(&program).run_on(&tree, fuel, output)
        }),
    }
}

/// The rows of the file, then pass one: "The source run needs pass one only".
fn read_program(file: &[u8]) -> Result<Program, Refusal> {
    let program = Program::from_records(&read_file(file)?)?;
    pass_one::check(&program).map_err(Found::refusal)?;
    Ok(program)
}

/// "The runs test 13 before tree or fuel."
fn enough_space(values: usize, returns: usize) -> Result<(), Refusal> {
    if values < VALUE_WORDS || returns < RETURN_WORDS {
        return refuse(BUFFER_TOO_SHORT, 0);
    }
    Ok(())
}
