use std::collections::BTreeSet;

use super::*;

mod broken;
mod deep;
mod evaluated;
mod sums;

#[test]
fn known_runs() {
    for known in known::all() {
        let (ran, output, code) = known.case.perform();
        assert_eq!(ran, known.answer, "{}", known.name);
        assert_eq!(output, known.output, "{}", known.name);
        assert_eq!(code, known.code, "{}", known.name);
    }
}

#[test]
fn known_runs_have_names_of_their_own() {
    let mut names = BTreeSet::new();
    for known in known::all() {
        assert!(names.insert(known.name.clone()), "{}", known.name);
    }
}

/// Every number but 19, which "never follows translated code", and 20, which
/// the stream run doesn't know.
#[test]
fn known_runs_answer_every_number() {
    let refusals = known::all().into_iter().map(|known| known.answer.refusal);
    let numbers: BTreeSet<u8> = refusals.flatten().map(|refusal| refusal.number).collect();
    assert_eq!(numbers, (1..=18).chain([21]).collect());
}
