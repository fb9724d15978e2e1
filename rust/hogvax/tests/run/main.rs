//! The runner beside the reference implementation, and demand 3.

mod checked;
mod damaged;
mod deepest;
mod demand_3;
mod every_step;
mod generated;
mod known;
#[path = "../shared/known_runs.rs"]
mod known_runs;
mod programs;
#[path = "../shared/run_call.rs"]
mod run_call;
#[path = "../shared/run_space.rs"]
mod run_space;
mod space;
mod stops;
#[path = "../shared/stream_gave.rs"]
mod stream_gave;
mod trees;

use hogvax::{Ran, LONGEST_CODE};
use reference::machine::{FILLER, RETURN_WORDS, VALUE_WORDS};
use reference::{lay_out, Program, RunCase};
use run_call::{Lengths, Lent, RunCall, SafeAlone, SafeIn, Slices};
use stream_gave::{Gave, WRITTEN};

fn file(program: &Program) -> Vec<u8> {
    lay_out(&program.records())
}

impl RunCall<5> for RunCase {
    type Answer = Ran;

    const WRITTEN: usize = WRITTEN;

    const SAFE_IN: SafeIn<Ran> = hogvax::run_in;

    const SAFE_ALONE: SafeAlone<Ran> = hogvax::run;

    fn given(&self) -> (&[u8], &[u8], u64) {
        (&self.file, &self.input, self.fuel)
    }

    fn lengths(&self) -> Lengths {
        Lengths {
            output: self.output,
            code: self.code,
            values: self.value_words,
            returns: self.return_words,
        }
    }

    fn with_fuel(&self, fuel: u64) -> RunCase {
        RunCase {
            fuel,
            ..self.clone()
        }
    }

    fn call(&self, lent: Slices) -> u32 {
        hogvax::run_into(
            &self.file,
            &self.input,
            self.fuel,
            lent.output,
            lent.code,
            lent.values,
            lent.returns,
            lent.answer,
        )
    }

    fn safe_answer(gave: &Gave) -> Ran {
        gave.ran()
    }

    fn reference(&self) -> Gave {
        let (ran, output, code) = self.perform();
        Gave::told(ran, output, code)
    }
}

impl Lent {
    /// A run finds what the one before it left in the work words.
    fn new() -> Lent {
        Lent::with(None, 2)
    }

    /// With just the work words that a run needs, and what stands about them.
    fn exact() -> Lent {
        Lent::with(None, 1)
    }

    /// As a safe function, which lends enough.
    fn run(&mut self, case: &RunCase) -> (Ran, Vec<u8>) {
        case.call_in(&mut self.work, FILLER)
    }
}
