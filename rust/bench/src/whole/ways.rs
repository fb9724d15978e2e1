//! The three ways from a program and the tokens of a tree to the result.

use std::hint::black_box;

use bench::programs::Program;
use hogvax::{Ran, WorkSpace};
use reference::source::{prepared, Prepared};

use crate::safe::{safe_perform, RETURN_WORDS, VALUE_WORDS};

#[derive(Clone, Copy, Debug, PartialEq, Eq)]
pub enum Way {
    /// The library's one call, which checks the program, translates it and
    /// runs its code.
    Run,
    /// The plain stream machine, over code translated beforehand.
    Plain,
    /// The reference's evaluation of a program read beforehand: it builds the
    /// tree from its tokens, then the result's tree, and writes that out.
    Trees,
}

/// In the order of all arrays that have a place for each way.
pub const WAYS: [Way; 3] = [Way::Run, Way::Plain, Way::Trees];

impl Way {
    /// The word by which the benchmark tells itself of it.
    pub fn word(self) -> &'static str {
        match self {
            Way::Run => "run",
            Way::Plain => "plain",
            Way::Trees => "trees",
        }
    }
}

/// A way for one program, with what it has before its first run.
pub enum Ready<'a> {
    Run {
        file: &'a [u8],
        work: WorkSpace,
    },
    Plain {
        code: Vec<u8>,
        values: Vec<u32>,
        returns: Vec<u64>,
    },
    Trees(&'a Prepared<'a>),
}

/// What a run gives beside the output.
#[derive(Clone, Copy, Debug, PartialEq, Eq)]
pub struct Given {
    pub written: usize,
    pub number: i32,
}

/// Makes these ways ready for a program and does the work with them, on a
/// thread whose stack is large enough for the evaluation on trees.
pub fn with_ready<T: Send, const N: usize>(
    program: &Program,
    ways: [Way; N],
    work: impl FnOnce([Ready; N]) -> T + Send,
) -> T {
    let done = prepared(&program.file, |trees| {
        work(ways.map(|way| Ready::new(way, program, trees)))
    });
    done.expect("the program is right")
}

impl<'a> Ready<'a> {
    fn new(way: Way, program: &'a Program, trees: &'a Prepared) -> Ready<'a> {
        match way {
            Way::Run => Ready::Run {
                file: &program.file,
                work: WorkSpace::new(),
            },
            Way::Plain => Ready::Plain {
                code: hogvax::translate(&program.file).expect("the program passes"),
                values: vec![0; VALUE_WORDS],
                returns: vec![0; RETURN_WORDS],
            },
            Way::Trees => Ready::Trees(trees),
        }
    }

    /// One run over an input that is one tree, with fuel enough.
    pub fn go(&mut self, input: &[u8], output: &mut [u8]) -> Given {
        let input = black_box(input);
        match self {
            Ready::Run { file, work } => {
                let file = black_box(*file);
                let ran = hogvax::run_in(work, file, input, u64::MAX, output);
                given(ran, input)
            }
            Ready::Plain {
                code,
                values,
                returns,
            } => {
                let ran = safe_perform(code, input, u64::MAX, output, values, returns);
                given(ran, input)
            }
            Ready::Trees(trees) => {
                let sourced = trees.run(input, u64::MAX, output);
                assert!(sourced.refused.is_none(), "{sourced}");
                Given {
                    written: sourced.written,
                    number: sourced.number,
                }
            }
        }
    }
}

/// What a stream run gives that ended and read its whole input.
fn given(ran: Ran, input: &[u8]) -> Given {
    assert!(ran.refused.is_none() && ran.read == input.len(), "{ran}");
    Given {
        written: ran.written,
        number: ran.number,
    }
}
