//! "The source evaluation": what a program gives for a tree, "without fuel or
//! limits". It ends, goes on for ever, or breaks off at a sum that is out of
//! range.

use crate::program::Program;
use crate::tree::Tree;

pub mod known;
mod large_stack;
mod source;

#[cfg(test)]
mod tests;

use source::{Halt, Source};

/// What an expression gives.
#[derive(Clone, Debug, PartialEq, Eq)]
pub enum Value {
    Number(i32),
    Tree(Tree),
}

impl Value {
    /// "its bytes the tokens, none for a number."
    pub fn bytes(&self) -> Vec<u8> {
        match self {
            Value::Number(_) => Vec::new(),
            Value::Tree(tree) => tree.tokens(),
        }
    }

    /// "the number (0 for a tree"
    pub fn number(&self) -> i32 {
        match self {
            Value::Number(number) => *number,
            Value::Tree(_) => 0,
        }
    }
}

/// An evaluation that ended.
#[derive(Clone, Debug, PartialEq, Eq)]
pub struct Ended {
    /// "the result is function 0's value"
    pub value: Value,
    /// "It ends where finitely many expressions begin, n in all"
    pub begun: u64,
    /// The greatest number of calls open at once, the first included.
    pub open: usize,
    /// The sum of the table's column "units" over the expressions begun.
    pub units: u64,
}

/// How far an evaluation came.
#[derive(Clone, Debug, PartialEq, Eq)]
pub enum Evaluation {
    Ended(Ended),
    /// A call more would open than the caller allows, after so many
    /// expressions begun.
    TooManyOpen {
        begun: u64,
    },
    /// An expression more would begin than the caller allows.
    TooLong,
    /// N3: "Such an evaluation has no result": the sum of the Add at that
    /// record is out of range.
    SumOutOfRange {
        record: usize,
        begun: u64,
        /// The instructions that the templates perform before that add.
        units: u64,
    },
}

/// Evaluates a program that passes pass one on a tree, with at most so many
/// calls open and at most so many expressions begun.
pub fn evaluate(program: &Program, tree: &Tree, most_open: usize, most_begun: u64) -> Evaluation {
    with_stack(program, most_open, most_begun, || {
        on_this_stack(program, tree, most_open, most_begun)
    })
}

/// Does the work on a thread with a stack large enough for evaluations of the
/// program with at most so many calls open and expressions begun.
pub(crate) fn with_stack<T: Send>(
    program: &Program,
    most_open: usize,
    most_begun: u64,
    work: impl FnOnce() -> T + Send,
) -> T {
    large_stack::with_depth(deepest(program, most_open, most_begun), work)
}

/// As `evaluate`, on the stack of the thread that calls it.
pub(crate) fn on_this_stack(
    program: &Program,
    tree: &Tree,
    most_open: usize,
    most_begun: u64,
) -> Evaluation {
    let mut source = Source::new(&program.functions, most_open, most_begun);
    match source.start(tree) {
        Ok(value) => Evaluation::Ended(source.ended(value)),
        Err(Halt::TooManyOpen) => Evaluation::TooManyOpen {
            begun: source.begun(),
        },
        Err(Halt::TooLong) => Evaluation::TooLong,
        Err(Halt::SumOutOfRange) => source.out_of_range(),
    }
}

/// The most expressions that can be nested in each other: a body's own in
/// each open call, and no more than begin.
fn deepest(program: &Program, most_open: usize, most_begun: u64) -> usize {
    let bodies = program.functions.iter();
    let nested = bodies.map(|function| function.body.depth()).max();
    let in_calls = nested.unwrap_or(0).saturating_mul(most_open);
    in_calls.min(usize::try_from(most_begun).unwrap_or(usize::MAX))
}
