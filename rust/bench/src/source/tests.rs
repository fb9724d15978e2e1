//! Both ways are right, so that a comparison means something, and the table is
//! made.

use reference::machine::known::programs::{listed, FILL, GROW, SUM};
use reference::source::known;
use reference::{assemble, generate, Random};

use super::*;
use bench::trees::{deepest_caterpillar, small_labels};

/// The stream machine's benchmark has the code of the same programs.
#[test]
fn the_programs_are_those_of_the_stream_machine() {
    let listings = [GROW, SUM, FILL].map(|listing| assemble(&listed(listing)));
    for (program, code) in programs().iter().zip(listings) {
        assert_eq!(hogvax::translate(&program.file), Ok(code));
    }
}

/// The proved way and the recursive one answer the known source runs, as far as
/// they are lent enough.
#[test]
fn both_ways_answer_known_runs() {
    let mut runs = 0;
    for known in known::all() {
        let case = &known.case;
        let answer = known.answer;
        if case.fuel != u64::MAX || answer.refused.is_some_and(|refusal| refusal.number <= 13) {
            continue;
        }
        let done = prepared(&case.file, |recursive| {
            for way in WAYS {
                let mut lent = ways::Lent::new(case.output);
                let told = sourced(way, &case.file, recursive, &case.input, &mut lent);
                assert_eq!(told.to_string(), answer.to_string(), "{}", known.name);
                let written = &known.output[..answer.written];
                assert!(lent.output.starts_with(written), "{}", known.name);
            }
        });
        assert_eq!(done, Ok(()), "{}", known.name);
        runs += 1;
    }
    assert!(runs > 10, "{runs}");
}

/// A line for each program, measured over a few small trees.
#[test]
fn every_program_is_measured() {
    let mut random = Random::new(4);
    let trees = (1..20).map(|tips| small_labels(&generate::tree(&mut random, tips)));
    let input = Input {
        name: "small trees",
        trees: trees.collect(),
    };
    for program in programs() {
        let done = prepared(&program.file, |recursive| {
            assert_same(&program, recursive, &input);
            let measured = measure(&program, recursive, &input, 0.0);
            let Spread {
                least,
                median,
                greatest,
            } = measured.ratio;
            assert!(measured.speeds.iter().all(|&speed| speed > 0.0));
            assert!(0.0 < least && least <= median && median <= greatest);
            let line = line(&program, &input, &measured);
            assert!(line.starts_with(program.name), "{line}");
            assert!(heading().len() < line.len(), "{line}");
        });
        assert_eq!(done, Ok(()));
    }
}

#[test]
fn a_round_has_one_pass_at_least() {
    assert_eq!(passes(0.1, 0.03), 1);
    assert_eq!(passes(0.03, 0.03), 1);
    assert_eq!(passes(0.01, 0.1), 10);
    assert_eq!(passes(0.0, 0.03), 1_000_000);
}

#[test]
fn no_caterpillar_is_deeper() {
    for program in programs() {
        let deepest = deepest_caterpillar(program.open);
        let deeper = [&[2], &deepest[..], &[1, 0, 0, 0, 0]].concat();
        for (input, number) in [(deepest, None), (deeper, Some(18))] {
            let mut output = vec![0; input.len()];
            let told = hogvax::source(&program.file, &input, u64::MAX, &mut output);
            assert_eq!(told.refused.map(|refused| refused.number), number);
        }
    }
}
