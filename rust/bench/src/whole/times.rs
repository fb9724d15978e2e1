//! What the ways take over one input.

use std::time::Instant;

use bench::programs::Program;
use bench::Spread;

use crate::inputs;
use crate::ways::{with_ready, Given, Ready, WAYS};

/// The times over one input, in the order of `WAYS`; none for a way that was
/// left out.
#[derive(Debug, Default)]
pub struct Timed {
    /// The medians.
    pub seconds: [Option<f64>; 3],
    /// Each way's time to that of `run` in the same round: the medians.
    pub ratios: [Option<f64>; 3],
}

/// The seconds of one round, in the order of `WAYS`.
type Round = [Option<f64>; 3];

/// How many rounds there are over an input of so many MB: fewer of those that
/// take long.
pub fn rounds(megabytes: usize) -> usize {
    match megabytes {
        0..=5 => 15,
        6..=20 => 9,
        21..=50 => 5,
        _ => 3,
    }
}

/// Goes those of the ways that are taken in turn, round after round, so that
/// all meet the same load of the machine. None are taken without `run`.
pub fn measure(program: &Program, tips: usize, rounds: usize, taken: [bool; 3]) -> Timed {
    if !taken[0] {
        return Timed::default();
    }
    let input = inputs::input(tips);
    with_ready(program, WAYS, |mut ready| {
        let mut checked = Checked::new(inputs::result_length(program, tips));
        let mut round =
            || [0, 1, 2].map(|way| taken[way].then(|| checked.go(&mut ready[way], &input)));
        let rounds: Vec<Round> = (0..rounds).map(|_| round()).collect();
        summary(&rounds)
    })
}

/// The output of the ways, and what the first run gave: all others must give
/// the same. Checking is not in the times.
struct Checked {
    output: Vec<u8>,
    expected: Option<(Given, Vec<u8>)>,
}

impl Checked {
    fn new(length: usize) -> Checked {
        Checked {
            output: vec![0; length],
            expected: None,
        }
    }

    /// The seconds of one run.
    fn go(&mut self, ready: &mut Ready, input: &[u8]) -> f64 {
        // So that no run finds the result already there, and none is the
        // first to touch the pages.
        self.output.fill(0);
        let start = Instant::now();
        let given = ready.go(input, &mut self.output);
        let took = start.elapsed().as_secs_f64();
        let first = || (given, self.output.clone());
        let (expected, output) = self.expected.get_or_insert_with(first);
        assert_eq!(given, *expected);
        assert!(self.output == *output, "not the same output");
        took
    }
}

/// The medians of at least one round.
fn summary(rounds: &[Round]) -> Timed {
    let median = |number: &dyn Fn(&Round) -> Option<f64>| {
        let numbers: Option<Vec<f64>> = rounds.iter().map(number).collect();
        numbers.map(|numbers| Spread::of(numbers).median)
    };
    Timed {
        seconds: [0, 1, 2].map(|way| median(&|round| round[way])),
        ratios: [0, 1, 2].map(|way| median(&|round| Some(round[way]? / round[0]?))),
    }
}
