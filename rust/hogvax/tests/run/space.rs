//! Code buffers, work words and answers: what is too short, and what is more
//! than enough.

use reference::generate::ordered;
use reference::run::known;
use reference::{translate, Random};

use super::run_space::{assert_fills_slots, assert_takes_slots, assert_touches_nothing_else};
use super::run_space::{ENOUGH, SHORT};
use super::*;

/// The known runs that come to their first instruction with a small program,
/// as they are and with fuel 0.
fn cases() -> Vec<RunCase> {
    let known = known::all().into_iter().map(|known| known.case);
    let runs = known.filter(|case| case.file.len() == 512 && translate(&case.file).is_ok());
    runs.flat_map(|case| [case.with_fuel(0), case]).collect()
}

/// The case with these buffers.
fn with_space(case: &RunCase, code: usize, (value_words, return_words): (usize, usize)) -> RunCase {
    RunCase {
        code,
        value_words,
        return_words,
        ..case.clone()
    }
}

/// 13 at 0 with 0 in every count, and nothing touched.
fn assert_too_short(lent: &mut Lent, case: &RunCase) {
    let gave = lent.answer(case);
    assert_eq!((gave.number, gave.slots), (13, [0; 5]), "{case:?}");
    let buffers = gave.output.iter().chain(&gave.code);
    assert!({ buffers }.all(|&byte| byte == FILLER), "{case:?}");
}

/// Before all refusals of the run, and whatever else is lent.
#[test]
fn code_buffers_of_every_length() {
    let mut random = Random::new(360);
    let mut lent = Lent::new();
    for (functions, nodes) in [(1, 1), (1, 10), (3, 30), (8, 60)] {
        let file = file(&ordered::program(&mut random, functions, nodes));
        let need = translate(&file).expect("code").len();
        let case = RunCase::new(&file, &[1, 5, 0, 0, 0], 100, 50, need);
        for code in (0..need).chain([need, need + 1, need + 7, need + 8, LONGEST_CODE]) {
            let case = with_space(&case, code, ENOUGH[0]);
            if code < need {
                assert_too_short(&mut lent, &case);
            } else {
                assert!(lent.answer(&case).number != 13, "{case:?}");
            }
        }
    }
}

#[test]
fn work_words_that_are_too_few_give_13() {
    let mut lent = Lent::new();
    for case in cases() {
        for words in SHORT {
            for code in [0, LONGEST_CODE] {
                assert_too_short(&mut lent, &with_space(&case, code, words));
            }
        }
    }
}

/// More words and a longer code buffer change nothing.
#[test]
fn space_that_is_enough() {
    let mut lent = Lent::new();
    let mut seen = [0; 22];
    for case in cases() {
        let need = translate(&case.file).expect("code").len();
        let expected = lent.answer(&with_space(&case, need, ENOUGH[0]));
        for words in ENOUGH {
            for code in [need, need + 1, LONGEST_CODE, 100_000] {
                let gave = lent.answer(&with_space(&case, code, words));
                assert_eq!(gave.ran(), expected.ran(), "{case:?}");
                assert!(gave.output == expected.output, "{case:?}");
                assert!(gave.code[..need] == expected.code, "{case:?}");
            }
        }
        seen[expected.number as usize] += 1;
    }
    for number in [0, 14, 15, 16, 17, 18, 21] {
        assert!(seen[number] > 0, "answer {number} was not seen");
    }
}

// Answers

/// A known run for each answer.
fn one_of_each() -> Vec<(RunCase, Gave)> {
    let all = known_runs::one_of_each(super::known::all());
    let mut numbers: Vec<u32> = all.iter().map(|(_, gave)| gave.number).collect();
    numbers.sort_unstable();
    assert_eq!(numbers, super::known::ANSWERS);
    all
}

#[test]
fn an_answer_takes_five_slots() {
    for (case, _) in one_of_each() {
        assert_takes_slots(&case, case.lengths());
    }
}

/// Refused with 1 to 13.
#[test]
fn a_call_refused_before_its_run_touches_nothing_else() {
    for (case, gave) in one_of_each() {
        if (1..=13).contains(&gave.number) {
            assert_touches_nothing_else(&case, case.lengths(), gave.number, gave.slots);
        }
    }
}

#[test]
fn an_answer_fills_five_places_and_leaves_the_rest() {
    for (case, expected) in one_of_each() {
        assert_fills_slots(&case, case.lengths(), &expected);
    }
}
