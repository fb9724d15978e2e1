//! The slots of a lent answer.

use reference::generate::{FileDamage, RecordDamage};
use reference::order::known;
use reference::Random;

use super::*;

/// What stands in each slot of an answer before the call.
const UNTOUCHED: u64 = 0x0123_4567_89ab_cdef;

/// Inputs of a call with its answers.
type Inputs = Vec<(Vec<u8>, Answer)>;

/// Inputs for each of these answers, and for no other.
fn inputs(call: &Call, numbers: &[usize]) -> Inputs {
    let mut random = Random::new(180);
    let programs = known::all().into_iter().map(|known| known.program);
    let mut inputs: Vec<Vec<u8>> = programs.map(|program| program.records()).collect();
    let grow = inputs[0].clone();
    for damage in RecordDamage::ALL {
        inputs.extend(damage.apply(&mut random, &grow).map(|(damaged, _)| damaged));
    }
    if numbers.contains(&1) {
        inputs = inputs.iter().map(|records| lay_out(records)).collect();
        let file = inputs[0].clone();
        for damage in FileDamage::ALL {
            inputs.extend(damage.apply(&mut random, &file).map(|(damaged, _)| damaged));
        }
    }
    let answers: Vec<Answer> = inputs.iter().map(|input| call.answer(input)).collect();
    let mut seen: Vec<usize> = answers.iter().map(|&answer| number(answer)).collect();
    seen.sort_unstable();
    seen.dedup();
    assert_eq!(seen, numbers);
    inputs.into_iter().zip(answers).collect()
}

/// Both calls with their inputs.
fn calls() -> [(Call, Inputs); 2] {
    let numbers: Vec<usize> = (0..=12).collect();
    let of_records = [&[0], &numbers[4..]].concat();
    let records = inputs(&CHECK_RECORDS, &of_records);
    let files = inputs(&CHECK, &numbers);
    [(CHECK_RECORDS, records), (CHECK, files)]
}

/// Before all other refusals.
#[test]
fn an_answer_takes_two_slots() {
    for (call, inputs) in calls() {
        for (input, _) in inputs {
            for slots in 0..2 {
                let mut answer = [UNTOUCHED; 2];
                assert_eq!((call.into)(&input, &mut answer[..slots]), 13);
                assert_eq!(answer, [UNTOUCHED; 2]);
            }
        }
    }
}

#[test]
fn an_answer_fills_two_places_and_leaves_the_rest() {
    for (call, inputs) in calls() {
        for (input, expected) in inputs {
            for slots in [2, 3, 5, 100] {
                let mut answer = vec![UNTOUCHED; slots];
                let number = (call.into)(&input, &mut answer);
                let told = expected.map_or_else(|r| (r.number, r.position), |()| (0, 0));
                assert_eq!((number, answer[0], answer[1]), (told.0, told.1, 0));
                assert!(answer[2..].iter().all(|&word| word == UNTOUCHED));
            }
        }
    }
}
