//! The space that the output of a run gets: as much as `--space` says, or what
//! it turns out to need.

use std::hint::black_box;

use crate::arguments::Words;
use crate::exit_status::Trouble;
use crate::run_answer::Answer;

/// The option that says how many bytes the output gets.
pub const SPACE: &str = "--space";

/// The option that says how far the output's bytes may grow.
pub const MOST_SPACE: &str = "--most-space";

/// Without `--space` the output has at least 1 MiB.
const LEAST: u64 = 1 << 20;

/// Without `--most-space` it grows up to 1 GiB.
const MOST: u64 = 1 << 30;

/// The refusal of a run whose output is too short.
const OUTPUT_FULL: u32 = 17;

pub enum Space {
    /// So many bytes.
    Given(u64),
    /// At first what suits the input, then twice as much each time that the
    /// output is too short, up to so many bytes.
    Growing(u64),
}

impl Space {
    /// The space that these words ask for.
    pub fn asked(words: &Words) -> Result<Space, Trouble> {
        match (words.number(SPACE)?, words.number(MOST_SPACE)?) {
            (Some(_), Some(_)) => Err(Trouble(format!(
                "{SPACE} and {MOST_SPACE} don't go together: a space that is given does not grow"
            ))),
            (Some(bytes), None) => Ok(Space::Given(bytes)),
            (None, most) => Ok(Space::Growing(most.unwrap_or(MOST))),
        }
    }

    /// The first size, for an input of so many bytes, and the last.
    fn bounds(&self, input: usize) -> (u64, u64) {
        match *self {
            Space::Given(bytes) => (bytes, bytes),
            Space::Growing(most) => {
                let first = (input as u64).saturating_mul(2).max(LEAST);
                (first.min(most), most)
            }
        }
    }

    /// Makes a run over an input of so many bytes, again and again while more
    /// space may help. Gives the last run's answer, and what it wrote.
    pub fn run<A: Answer>(
        &self,
        input: usize,
        mut run: impl FnMut(&mut [u8]) -> A,
    ) -> Result<(A, Vec<u8>), Trouble> {
        let (mut bytes, most) = self.bounds(input);
        loop {
            let mut output = zeros(bytes)?;
            let answer = run(&mut output);
            if bytes == most || !is_full(&answer) {
                output.truncate(answer.written());
                return Ok((answer, output));
            }
            bytes = bytes.saturating_mul(2).min(most);
        }
    }
}

fn is_full(answer: &impl Answer) -> bool {
    let refused = answer.refused();
    refused.is_some_and(|refused| refused.number == OUTPUT_FULL)
}

/// So many zero bytes. `vec!` leaves the memory to be touched by the run, but
/// would end the program where there is too little, so that is tried before.
fn zeros(bytes: u64) -> Result<Vec<u8>, Trouble> {
    let trouble = || Trouble(format!("no memory for an output of {bytes} bytes"));
    let length = usize::try_from(bytes).map_err(|_| trouble())?;
    let mut trial: Vec<u8> = Vec::new();
    trial.try_reserve_exact(length).map_err(|_| trouble())?;
    // A vector that nobody looks at might not be allocated.
    drop(black_box(trial));
    Ok(vec![0; length])
}

#[cfg(test)]
mod tests {
    use std::ffi::OsString;

    use hogvax::{Ran, Refused, Sourced};

    use super::*;
    use crate::arguments::Takes;

    /// The space that is asked for by these words.
    fn space(words: &[&str]) -> Space {
        let words: Vec<OsString> = words.iter().map(OsString::from).collect();
        let options = [(SPACE, Takes::Number), (MOST_SPACE, Takes::Number)];
        let words = Words::sort(&words, &options).unwrap();
        Space::asked(&words).unwrap_or_else(|Trouble(message)| panic!("{message}"))
    }

    /// The sizes that a run which needs so many bytes is given, one after
    /// another; and whether it ended.
    fn sizes(space: Space, input: usize, need: usize) -> (Vec<usize>, bool) {
        let mut sizes = Vec::new();
        let answer = space.run(input, |output| {
            sizes.push(output.len());
            let full = Refused {
                number: OUTPUT_FULL,
                position: 0,
            };
            Ran {
                refused: (output.len() < need).then_some(full),
                units: 0,
                read: 0,
                written: 0,
                number: 0,
            }
        });
        let (ran, _) = answer.unwrap_or_else(|Trouble(message)| panic!("{message}"));
        (sizes, ran.refused.is_none())
    }

    const MIB: usize = 1 << 20;

    #[test]
    fn space_that_is_given_does_not_grow() {
        for bytes in [0, 1, 10, 3 * MIB] {
            let words = ["--space", &bytes.to_string()];
            assert_eq!(sizes(space(&words), 5 * MIB, bytes), (vec![bytes], true));
            let more = bytes + 1;
            assert_eq!(sizes(space(&words), 5 * MIB, more), (vec![bytes], false));
        }
    }

    #[test]
    fn space_begins_with_a_mebibyte_or_twice_the_input() {
        for (input, first) in [
            (0, MIB),
            (11, MIB),
            (MIB / 2, MIB),
            (MIB / 2 + 1, MIB + 2),
            (3 * MIB, 6 * MIB),
        ] {
            assert_eq!(sizes(space(&[]), input, 0), (vec![first], true));
        }
    }

    #[test]
    fn space_doubles_up_to_a_gibibyte() {
        let all: Vec<usize> = (0..=10).map(|doubled| MIB << doubled).collect();
        assert_eq!(sizes(space(&[]), 0, MIB), (all[..1].to_vec(), true));
        assert_eq!(sizes(space(&[]), 0, MIB + 1), (all[..2].to_vec(), true));
        assert_eq!(sizes(space(&[]), 0, 4 * MIB), (all[..3].to_vec(), true));
        assert_eq!(sizes(space(&[]), 0, 1024 * MIB), (all.clone(), true));
        assert_eq!(sizes(space(&[]), 0, 1024 * MIB + 1), (all, false));
    }

    #[test]
    fn space_doubles_up_to_the_most() {
        let most = |bytes: usize| space(&["--most-space", &bytes.to_string()]);
        for bytes in [0, 1, 10, MIB] {
            assert_eq!(sizes(most(bytes), 3 * MIB, bytes + 1), (vec![bytes], false));
        }
        let (odd, need) = (3 * MIB - 7, 4 * MIB);
        let all = vec![MIB, 2 * MIB, odd];
        assert_eq!(sizes(most(odd), 0, odd), (all.clone(), true));
        assert_eq!(sizes(most(odd), 0, need), (all, false));
        assert_eq!(sizes(most(8 * MIB), 3 * MIB, 1), (vec![6 * MIB], true));
    }

    /// 17 of a source run says nothing of how much it needs.
    #[test]
    fn space_of_a_source_run_doubles() {
        let mut sizes = Vec::new();
        let answer = space(&[]).run(0, |output| {
            sizes.push(output.len());
            output[0] = 7;
            let (number, position) = (OUTPUT_FULL, 0);
            let short = output.len() < 3 * MIB;
            Sourced {
                refused: short.then_some(Refused { number, position }),
                begun: 9,
                written: usize::from(!short),
                number: 0,
                tips: usize::from(!short),
                depth: 0,
            }
        });
        let written = answer.map(|(_, written)| written).ok();
        assert_eq!(sizes, [MIB, 2 * MIB, 4 * MIB]);
        assert_eq!(written, Some(vec![7]));
    }

    /// Other refusals are no matter of space.
    #[test]
    fn only_a_full_output_grows() {
        for number in (1..=21).filter(|&number| number != OUTPUT_FULL) {
            let mut runs = 0;
            let answer = space(&[]).run(0, |output| {
                runs += 1;
                output[..3].copy_from_slice(&[7, 8, 9]);
                Ran {
                    refused: Some(Refused {
                        number,
                        position: 0,
                    }),
                    units: 0,
                    read: 0,
                    written: 2,
                    number: 0,
                }
            });
            let written = answer.map(|(_, written)| written).ok();
            assert_eq!((runs, written), (1, Some(vec![7, 8])));
        }
    }
}
