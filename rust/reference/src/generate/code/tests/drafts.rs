//! A draft stands where it says.

use super::*;
use crate::generate::code::draft::Draft;
use crate::machine::{OPEN_LIMIT, VALUE_WORDS};

/// Runs the draft's code to its end: all that is counted along is so, and it
/// is reached with moderate fuel.
fn check(random: &mut Random, draft: &Draft) {
    let case = draft.case(random, &[], 0);
    let (ran, trace, _) = case.perform_traced();
    assert_eq!(trace.stop.mark, Mark::alone(Cause::PastTheEnd), "{case:?}");
    assert_eq!(trace.address, draft.code.len(), "{case:?}");
    assert_eq!((trace.words, trace.open), (draft.words, draft.open));
    assert_eq!((ran.read, ran.written), (draft.input.len(), draft.written));
}

#[test]
fn of_detours() {
    let mut random = Random::new(30);
    for _ in 0..OF_A_KIND {
        let mut draft = Draft::begun(&mut random);
        check(&mut random, &draft);
        assert_eq!((draft.words, draft.open), (0, 1));
        draft.words(&mut random, 3);
        draft.call(2);
        draft.words(&mut random, 1);
        check(&mut random, &draft);
        assert_eq!((draft.words, draft.above, draft.open), (4, 3, 2));
    }
}

#[test]
fn of_a_full_stack() {
    let mut random = Random::new(31);
    for _ in 0..OF_A_KIND / 10 {
        let mut draft = Draft::begun(&mut random);
        let words = VALUE_WORDS - random.below(2);
        draft.fill_to(&mut random, words);
        check(&mut random, &draft);
        assert_eq!(draft.words, words);
        assert!(draft.above > 0);
    }
}

#[test]
fn of_open_calls() {
    let mut random = Random::new(32);
    for _ in 0..OF_A_KIND / 10 {
        let mut draft = Draft::begun(&mut random);
        let open = OPEN_LIMIT - random.below(3);
        draft.open_to(&mut random, open);
        check(&mut random, &draft);
        assert_eq!(draft.open, open);
    }
}
