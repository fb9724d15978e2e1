//! The stream run beside the reference implementation.

mod bytes;
mod cases;
mod computed;
mod deep;
mod fuel;
mod gave;
mod inputs;
mod known;
mod lengths;
mod numbers;
mod random;
#[path = "../shared/run_call.rs"]
mod run_call;
#[path = "../shared/run_space.rs"]
mod run_space;
mod space;
#[path = "../shared/stream_gave.rs"]
mod stream_gave;
mod trees;

use hogvax::Ran;
use reference::machine::{FILLER, RETURN_WORDS, VALUE_WORDS};
use reference::{TestCase, Trace};
use run_call::{Lengths, Lent, RunCall, SafeAlone, SafeIn, Slices};
use stream_gave::{Gave, WRITTEN};

/// More fuel than a run that ends in time can use.
const MUCH_FUEL: u64 = 1 << 32;

/// The case with so many work words.
fn lengths(case: &TestCase, (values, returns): (usize, usize)) -> Lengths {
    Lengths {
        output: case.output,
        code: 0,
        values,
        returns,
    }
}

impl RunCall<5> for TestCase {
    type Answer = Ran;

    const WRITTEN: usize = WRITTEN;

    const SAFE_IN: SafeIn<Ran> = hogvax::perform_in;

    const SAFE_ALONE: SafeAlone<Ran> = hogvax::perform;

    fn given(&self) -> (&[u8], &[u8], u64) {
        (&self.code, &self.input, self.fuel)
    }

    fn lengths(&self) -> Lengths {
        lengths(self, (VALUE_WORDS, RETURN_WORDS))
    }

    fn with_fuel(&self, fuel: u64) -> TestCase {
        TestCase::with_fuel(self, fuel)
    }

    fn call(&self, lent: Slices) -> u32 {
        assert!(lent.code.is_empty());
        hogvax::perform_into(
            &self.code,
            &self.input,
            self.fuel,
            lent.output,
            lent.values,
            lent.returns,
            lent.answer,
        )
    }

    fn safe_answer(gave: &Gave) -> Ran {
        gave.ran()
    }

    fn reference(&self) -> Gave {
        let (ran, output) = self.perform();
        Gave::told(ran, output, vec![])
    }
}

impl Lent {
    /// A run finds what the one before it left in the work words.
    fn new() -> Lent {
        Lent::with(None, 1)
    }

    /// As `answer`, with the reference's trace.
    fn answer_traced(&mut self, case: &TestCase) -> (Gave, Trace) {
        let (ran, trace, output) = case.perform_traced();
        let gave = Gave::told(ran, output, vec![]);
        self.assert_gives("not as the reference", case, &gave);
        (gave, trace)
    }
}
