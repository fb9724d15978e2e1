//! Runs of a program that is read once.

use super::*;
use crate::tree::Tree;

/// The known runs with work space enough.
fn with_space() -> Vec<known::Known> {
    let mut all = known::all();
    all.retain(|known| known.case.values >= VALUE_WORDS && known.case.returns >= RETURN_WORDS);
    all
}

/// Each three times on one thread.
#[test]
fn the_same_answers_on_an_input() {
    for known in with_space() {
        let case = &known.case;
        let run = |prepared: &Prepared| {
            let mut output = vec![FILLER; case.output];
            (prepared.run(&case.input, case.fuel, &mut output), output)
        };
        let answers = prepared(&case.file, |prepared| [0, 1, 2].map(|_| run(prepared)));
        match answers {
            Err(refusal) => assert_eq!(Sourced::refused(refusal, 0), known.answer),
            Ok(answers) => {
                let expected = (known.answer, known.output);
                assert!(answers.iter().all(|answer| *answer == expected));
            }
        }
    }
}

#[test]
fn the_same_answers_on_a_tree() {
    for known in with_space() {
        let case = &known.case;
        let Ok((tree, _)) = read_tree(&case.input) else {
            continue;
        };
        let run = |prepared: &Prepared, tree: &Tree| {
            let mut output = vec![FILLER; case.output];
            (prepared.run_on(tree, case.fuel, &mut output), output)
        };
        let answer = prepared(&case.file, |prepared| run(prepared, &tree));
        assert_eq!(answer, Ok((known.answer, known.output)), "{}", known.name);
    }
}
