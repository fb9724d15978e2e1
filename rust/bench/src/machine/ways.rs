//! The ways to run a program, lent the same.

use std::hint::black_box;

use hogvax::{Ran, Refused, WorkSpace};

use crate::computed_goto;
use crate::inputs::Program;
use crate::safe::{safe_perform, RETURN_WORDS, VALUE_WORDS};

/// What is lent to a run: the work space of any way, and the output.
pub struct Lent {
    work: WorkSpace,
    values: Vec<u32>,
    returns: Vec<u64>,
    pub output: Vec<u8>,
}

impl Lent {
    /// With an output of so many bytes.
    pub fn new(output: usize) -> Lent {
        Lent {
            work: WorkSpace::new(),
            values: vec![0; VALUE_WORDS],
            returns: vec![0; RETURN_WORDS],
            output: vec![0; output],
        }
    }

    /// With an output as long as the longest of these trees.
    pub fn for_trees(trees: &[Vec<u8>]) -> Lent {
        Lent::new(trees.iter().map(Vec::len).max().unwrap_or(0))
    }
}

#[derive(Clone, Copy)]
pub struct Way {
    pub name: &'static str,
    /// The function that it calls, as callgrind finds it.
    pub symbol: &'static str,
    /// Enough, or 0.
    fuel: u64,
    call: fn(program: &Program, input: &[u8], fuel: u64, lent: &mut Lent) -> Ran,
}

/// The library checks and translates the program file, and runs its code in the
/// loop of checked code.
pub const RUN: Way = Way {
    name: "run",
    symbol: "hogvax_run",
    fuel: u64::MAX,
    call: |program, input, fuel, lent| {
        hogvax::run_in(&mut lent.work, &program.file, input, fuel, &mut lent.output)
    },
};

/// What comes before the loop in `RUN`: without fuel the program file is checked
/// and translated, and no instruction performed.
pub const PREPARE: Way = Way {
    name: "prepare",
    fuel: 0,
    ..RUN
};

/// The library runs the code in the loop of any code.
pub const PERFORM: Way = Way {
    name: "perform",
    symbol: "hogvax_perform",
    fuel: u64::MAX,
    call: |program, input, fuel, lent| {
        hogvax::perform_in(&mut lent.work, &program.code, input, fuel, &mut lent.output)
    },
};

/// A machine in C runs the code.
pub const C: Way = Way {
    name: "C",
    symbol: "computed_goto_perform",
    fuel: u64::MAX,
    call: |program, input, fuel, lent| {
        let (values, returns) = (&mut lent.values, &mut lent.returns);
        computed_goto::perform(
            &program.code,
            input,
            fuel,
            &mut lent.output,
            values,
            returns,
        )
    },
};

/// A machine in safe Rust runs the code.
pub const RUST: Way = Way {
    name: "Rust",
    symbol: "*safe_perform*",
    fuel: u64::MAX,
    call: |program, input, fuel, lent| {
        let (values, returns) = (&mut lent.values, &mut lent.returns);
        safe_perform(
            &program.code,
            input,
            fuel,
            &mut lent.output,
            values,
            returns,
        )
    },
};

/// The ways that run a program to its end.
pub const WHOLE: [Way; 4] = [RUN, PERFORM, C, RUST];

/// All that is measured.
pub const MEASURED: [Way; 5] = [RUN, PREPARE, PERFORM, C, RUST];

impl Way {
    pub fn go(&self, program: &Program, input: &[u8], lent: &mut Lent) -> Ran {
        (self.call)(black_box(program), black_box(input), self.fuel, lent)
    }

    /// Whether the answer is that of a run to the end, or of one without fuel.
    fn is_right(&self, ran: &Ran, input: &[u8]) -> bool {
        let (number, position) = (14, 0);
        match self.fuel {
            0 => ran.refused == Some(Refused { number, position }),
            _ => ran.refused.is_none() && ran.read == input.len(),
        }
    }

    /// Goes once over each tree; the instructions performed.
    pub fn pass(&self, program: &Program, trees: &[Vec<u8>], lent: &mut Lent) -> u64 {
        let over = |tree: &Vec<u8>| {
            let ran = self.go(program, tree, lent);
            assert!(self.is_right(&ran, tree), "{}: {ran}", self.name);
            ran.units
        };
        trees.iter().map(over).sum()
    }
}
