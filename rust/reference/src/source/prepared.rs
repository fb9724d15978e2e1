//! Source runs of a program file that is read once, for benchmarks: what is
//! done once for all runs is not in the time of each.

use crate::evaluate::{on_this_stack, with_stack, Ended, Evaluation};
use crate::machine::OPEN_LIMIT;
use crate::program::Program;
use crate::sum::SUM_OUT_OF_RANGE;
use crate::tree::{read_tree, Refusal, Tree};

use super::{read_program, Sourced};
use super::{CALLS_OPEN, FUEL_USED_UP, OUTPUT_TOO_SHORT};

/// A program that passes pass one, on a thread with a stack large enough for
/// all its source runs. The work space is as long as it must be.
pub struct Prepared<'a> {
    program: &'a Program,
}

/// Reads a program file and checks it, both once, then does the work with the
/// program on one thread whose stack is large enough for every source run of
/// it; or the refusal of the file. A benchmark does all its rounds in one
/// such work.
pub fn prepared<T: Send>(
    file: &[u8],
    work: impl FnOnce(&Prepared) -> T + Send,
) -> Result<T, Refusal> {
    let program = read_program(file)?;
    let prepared = Prepared::new(&program);
    Ok(with_stack(&program, OPEN_LIMIT, u64::MAX, || {
        work(&prepared)
    }))
}

impl Prepared<'_> {
    pub(super) fn new(program: &Program) -> Prepared<'_> {
        Prepared { program }
    }

    /// The source run from the tree reader on.
    pub fn run(&self, input: &[u8], fuel: u64, output: &mut [u8]) -> Sourced {
        match read_tree(input) {
            Err(refusal) => Sourced::refused(refusal, 0),
            Ok((tree, _)) => self.run_on(&tree, fuel, output),
        }
    }

    /// The source run from the evaluation on. "The source run's fuel is
    /// expressions begun, looked at before each; a call's depth is tested
    /// after its arguments." 21 looks at no fuel.
    pub fn run_on(&self, tree: &Tree, fuel: u64, output: &mut [u8]) -> Sourced {
        match on_this_stack(self.program, tree, OPEN_LIMIT, fuel) {
            Evaluation::Ended(ended) => written(tree, &ended, output),
            Evaluation::TooManyOpen { begun } => refused_at_0(CALLS_OPEN, begun),
            Evaluation::TooLong => refused_at_0(FUEL_USED_UP, fuel),
            Evaluation::SumOutOfRange { record, begun, .. } => out_of_range(record, begun),
        }
    }
}

/// The result at the start of the output, or "17 output shorter than the
/// result, after evaluation". N5's tips and depth are of the tree that was
/// read.
fn written(tree: &Tree, ended: &Ended, output: &mut [u8]) -> Sourced {
    let (begun, bytes) = (ended.begun, ended.value.bytes());
    match output.get_mut(..bytes.len()) {
        None => refused_at_0(OUTPUT_TOO_SHORT, begun),
        Some(start) => {
            start.copy_from_slice(&bytes);
            Sourced {
                refused: None,
                begun,
                written: bytes.len(),
                number: ended.value.number(),
                tips: tree.tips(),
                depth: tree.depth(),
            }
        }
    }
}

/// N3: "at the Add record in the source run".
fn out_of_range(record: usize, begun: u64) -> Sourced {
    Sourced::refused(
        Refusal {
            number: SUM_OUT_OF_RANGE,
            position: record,
        },
        begun,
    )
}

/// "source run 0": the position of 14, 17 and 18.
fn refused_at_0(number: u8, begun: u64) -> Sourced {
    Sourced::refused(
        Refusal {
            number,
            position: 0,
        },
        begun,
    )
}
