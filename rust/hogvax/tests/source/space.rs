//! Work words, answers and the output: what is too short, and what is more than
//! enough.

use super::run_space::{assert_fills_slots, assert_takes_slots, assert_touches_nothing_else};
use super::run_space::{ENOUGH, SHORT};
use super::*;

/// The case with these work words.
fn with_words(case: &SourceCase, (values, returns): (usize, usize)) -> SourceCase {
    SourceCase {
        values,
        returns,
        ..case.clone()
    }
}

/// A known run for each answer but 13.
fn one_of_each() -> Vec<(SourceCase, Gave)> {
    let mut all = known_runs::one_of_each(super::known::all());
    all.retain(|(_, gave)| gave.number != 13);
    let numbers: Vec<u32> = all.iter().map(|(_, gave)| gave.number).collect();
    for number in (0..=10).chain([14, 15, 16, 17, 18, 20, 21]) {
        assert!(numbers.contains(&number), "no known run answers {number}");
    }
    all
}

/// 13 at 0 with 0 in every count, after the refusals of the program and before
/// all others, with nothing touched.
#[test]
fn work_words_that_are_too_few_give_13() {
    let mut lent = Lent::new();
    for (case, gave) in one_of_each() {
        for words in SHORT {
            let case = with_words(&case, words);
            let short = lent.answer(&case);
            if (1..=10).contains(&gave.number) {
                assert_eq!(short, gave, "{case:?}");
            } else {
                assert_eq!((short.number, short.slots), (13, [0; SLOTS]), "{case:?}");
                assert!(short.output.iter().all(|&byte| byte == FILLER));
            }
        }
    }
}

/// More words change nothing.
#[test]
fn work_words_that_are_enough() {
    let mut lent = Lent::new();
    for (case, gave) in one_of_each() {
        for words in ENOUGH {
            let case = with_words(&case, words);
            lent.assert_gives("enough words", &case, &gave);
        }
    }
}

/// A longer output changes nothing: bytes after the result are untouched.
#[test]
fn outputs_that_are_longer() {
    let mut lent = Lent::new();
    for (case, gave) in one_of_each() {
        if gave.number == 17 {
            continue;
        }
        for more in [1, 5, 1_000] {
            let mut case = case.clone();
            case.output += more;
            let mut gave = gave.clone();
            gave.output.resize(case.output, FILLER);
            lent.assert_gives("a longer output", &case, &gave);
        }
    }
}

// Answers

#[test]
fn an_answer_takes_six_slots() {
    for (case, _) in one_of_each() {
        assert_takes_slots(&case, case.lengths());
    }
}

/// Refused with 1 to 10, 13, 15, 16 or 20.
#[test]
fn a_call_refused_before_its_run_touches_nothing_else() {
    for (case, gave) in one_of_each() {
        if gave.number == 0 {
            for words in SHORT {
                let lengths = with_words(&case, words).lengths();
                assert_touches_nothing_else(&case, lengths, 13, [0; SLOTS]);
            }
        }
        if ![0, 14, 17, 18, 21].contains(&gave.number) {
            assert_touches_nothing_else(&case, case.lengths(), gave.number, gave.slots);
        }
    }
}

#[test]
fn an_answer_fills_six_places_and_leaves_the_rest() {
    for (case, expected) in one_of_each() {
        assert_fills_slots(&case, case.lengths(), &expected);
    }
}
