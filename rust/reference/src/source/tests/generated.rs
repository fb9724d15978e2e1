//! Generated runs against the evaluation with an explicit stack.

use super::explicit_stack::Records;
use super::*;
use crate::generate::any_source;
use crate::generate::sources::MODERATE;
use crate::random::Random;
use crate::tree::tree_measures;

/// What the run answers and what it writes, by other means from the tree
/// reader on.
fn expected(case: &SourceCase) -> Result<(Sourced, Vec<u8>), Refusal> {
    let records = read_file(&case.file)?;
    let program = Program::from_records(&records)?;
    pass_one::check(&program).map_err(Found::refusal)?;
    if case.values < 16_384 || case.returns < 2_048 {
        return refuse(13, 0);
    }
    let measures = tree_measures(&case.input)?;
    let fuel = case.fuel.min(MODERATE + 1);
    let outcome = Records::new(&records).evaluate(&case.input, fuel, 1_024);
    assert!(outcome.begun <= MODERATE, "{case:?}");
    let long = outcome.written.len() > case.output;
    let too_short = Refusal {
        number: 17,
        position: 0,
    };
    Ok(match outcome.refused.or(long.then_some(too_short)) {
        Some(refusal) => (Sourced::refused(refusal, outcome.begun), vec![]),
        None => {
            let sourced = Sourced {
                refused: None,
                begun: outcome.begun,
                written: outcome.written.len(),
                number: outcome.number,
                tips: measures.tips,
                depth: measures.depth,
            };
            (sourced, outcome.written)
        }
    })
}

#[test]
fn generated_runs() {
    let mut random = Random::new(421);
    for _ in 0..3_000 {
        let case = any_source(&mut random);
        let (answer, mut output) = match expected(&case) {
            Ok(expected) => expected,
            Err(refusal) => (Sourced::refused(refusal, 0), vec![]),
        };
        output.resize(case.output, FILLER);
        assert_eq!(case.perform(), (answer, output), "{case:?}");
    }
}
