//! Work words and answers: what is too short, and what is more than enough.

use reference::generate::code;
use reference::machine::known;
use reference::Random;

use super::run_space::{assert_fills_slots, assert_takes_slots, assert_touches_nothing_else};
use super::run_space::{ENOUGH, SHORT};
use super::*;

/// The known codes, as they are and with fuel 0; one has no code.
fn cases() -> Vec<TestCase> {
    let known = known::all().into_iter().map(|known| known.case);
    known.flat_map(|case| [case.with_fuel(0), case]).collect()
}

/// Before all other refusals, 14 too; every count is 0, and the output and the
/// work words are untouched.
#[test]
fn work_words_that_are_too_few_give_13() {
    for case in cases() {
        for words in SHORT {
            assert_touches_nothing_else(&case, lengths(&case, words), 13, [0; 5]);
        }
    }
}

/// The cases with what they give.
fn cases_with_answers() -> Vec<(TestCase, Gave)> {
    let mut lent = Lent::new();
    let mut random = Random::new(230);
    let any = (0..400).map(|_| code::any_case(&mut random));
    let full = (0..20).map(|seed| code::full_stack(&mut Random::new(seed)));
    let deep = (0..20).map(|seed| code::deep_calls(&mut Random::new(seed)));
    let all = cases().into_iter().chain(any).chain(full).chain(deep);
    let answered = all.map(|case| {
        let gave = lent.answer(&case);
        (case, gave)
    });
    answered.collect()
}

/// An answer fills its slots and leaves the rest. More work words than by the
/// limits change nothing: there are no more words and calls.
#[test]
fn work_words_that_are_enough() {
    let mut seen = [0; 22];
    for (case, expected) in cases_with_answers() {
        for words in ENOUGH {
            assert_fills_slots(&case, lengths(&case, words), &expected);
        }
        seen[expected.number as usize] += 1;
    }
    for number in [0, 14, 15, 16, 17, 18, 19, 21] {
        assert!(seen[number] > 0, "answer {number} was not seen");
    }
}

/// Whatever else is lent.
#[test]
fn an_answer_takes_five_slots() {
    for case in cases() {
        for words in [ENOUGH[0], SHORT[2]] {
            assert_takes_slots(&case, lengths(&case, words));
        }
    }
}
