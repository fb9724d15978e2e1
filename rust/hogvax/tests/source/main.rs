//! The source run beside the reference implementation, and beside the stream
//! run.

mod constructed;
mod deep;
mod fuel;
mod gave;
mod generated;
mod known;
#[path = "../shared/known_runs.rs"]
mod known_runs;
mod measures;
mod names;
mod order;
#[path = "../shared/run_call.rs"]
mod run_call;
#[path = "../shared/run_space.rs"]
mod run_space;
mod space;
mod stream;
mod sums;

use std::time::{Duration, Instant};

use gave::{refused_slots, Gave, SLOTS};
use hogvax::Sourced;
use reference::generate::sources::MODERATE;
use reference::machine::{FILLER, RETURN_WORDS, VALUE_WORDS};
use reference::{lay_out, Expr, Function, Program, Random, SourceCase};
use run_call::{Lengths, Lent, RunCall, SafeAlone, SafeIn, Slices};

/// So long a test made at random goes on after it has had its least cases.
const LONG: Duration = Duration::from_secs(2);

/// So many times at least, whatever time it takes, and at most so many.
fn times(least: usize, most: usize) -> impl Iterator<Item = usize> {
    let start = Instant::now();
    (0..most).take_while(move |&done| done < least || start.elapsed() < LONG)
}

fn file(program: &Program) -> Vec<u8> {
    lay_out(&program.records())
}

fn number_valued(parameters: u8, body: Expr) -> Function {
    Function {
        tree_valued: false,
        parameters,
        body,
    }
}

fn tree_valued(parameters: u8, body: Expr) -> Function {
    Function {
        tree_valued: true,
        parameters,
        body,
    }
}

impl RunCall<SLOTS> for SourceCase {
    type Answer = Sourced;

    const WRITTEN: usize = 2;

    const SAFE_IN: SafeIn<Sourced> = hogvax::source_in;

    const SAFE_ALONE: SafeAlone<Sourced> = hogvax::source;

    fn given(&self) -> (&[u8], &[u8], u64) {
        (&self.file, &self.input, self.fuel)
    }

    fn lengths(&self) -> Lengths {
        Lengths {
            output: self.output,
            code: 0,
            values: self.values,
            returns: self.returns,
        }
    }

    fn with_fuel(&self, fuel: u64) -> SourceCase {
        SourceCase {
            fuel,
            ..self.clone()
        }
    }

    fn call(&self, lent: Slices) -> u32 {
        assert!(lent.code.is_empty());
        hogvax::source_into(
            &self.file,
            &self.input,
            self.fuel,
            lent.output,
            lent.values,
            lent.returns,
            lent.answer,
        )
    }

    fn safe_answer(gave: &Gave) -> Sourced {
        gave.sourced()
    }

    fn reference(&self) -> Gave {
        let (sourced, output) = self.perform();
        Gave::told(sourced, output)
    }
}

impl Lent {
    /// The work words of a run hold anything before it.
    fn new() -> Lent {
        Lent::with(Some(Random::new(400)), 2)
    }

    /// As a safe function, which lends enough.
    fn source(&mut self, case: &SourceCase) -> (Sourced, Vec<u8>) {
        case.call_in(&mut self.work, FILLER)
    }
}
