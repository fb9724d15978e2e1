//! Lent buffers of every length, and the slots of the answer.

use reference::generate::{programs, FileDamage, RecordDamage};
use reference::{lay_out, Random};

use super::*;

/// Programs of these numbers of records.
fn some_records(seed: u64, counts: &[usize]) -> Vec<Vec<u8>> {
    let mut random = Random::new(seed);
    let records = |&count| programs::program_of_records(&mut random, count).records();
    counts.iter().map(records).collect()
}

/// An input for each refusal of a call, 13 aside, and one that is accepted.
fn one_of_each(call: &Call) -> Vec<(Vec<u8>, Answer)> {
    let mut random = Random::new(130);
    let records = programs::program(&mut random, 3, 100).records();
    let mut inputs = vec![records.clone()];
    for number in 4..=7 {
        let mut kinds = RecordDamage::ALL.into_iter();
        let kind = kinds.find(|kind| kind.number() == number).unwrap();
        inputs.push(kind.apply(&mut random, &records).unwrap().0);
    }
    if call.answers.contains(&1) {
        inputs = inputs.iter().map(|records| lay_out(records)).collect();
        for number in 1..=3 {
            let mut kinds = FileDamage::ALL.into_iter();
            let kind = kinds.find(|kind| kind.number() == number).unwrap();
            inputs.push(kind.apply(&mut random, &lay_out(&records)).unwrap().0);
        }
    }
    let answer = |input: Vec<u8>| {
        let answer = call.reference_answer(&input);
        (input, answer)
    };
    let all: Vec<(Vec<u8>, Answer)> = inputs.into_iter().map(answer).collect();
    let numbers = all.iter().map(|(_, answer)| number(answer));
    let mut seen: Vec<u32> = numbers.chain([13]).collect();
    seen.sort_unstable();
    assert_eq!(seen, call.answers);
    all
}

// Buffers

#[test]
fn buffers_of_every_length() {
    for records in some_records(131, &[3, 10, 63, 64, 127]) {
        PACK.assert_lengths(&records, 1);
        UNPACK.assert_lengths(&lay_out(&records), 1);
    }
}

#[test]
fn buffers_for_every_number_of_blocks() {
    let full = (1..=16).map(|blocks| 63 * blocks);
    let counts: Vec<usize> = full.flat_map(|count| [count, count + 1]).collect();
    for records in some_records(132, &counts)
        .iter()
        .chain(&some_records(133, &[1_057]))
    {
        PACK.assert_lengths(records, 512);
        UNPACK.assert_lengths(&lay_out(records), 504);
    }
}

#[test]
fn every_refusal_comes_before_short_buffers() {
    for call in [&PACK, &UNPACK] {
        for (input, answer) in one_of_each(call) {
            for length in [0, 1, 8, 511, 512, 513, 1_023] {
                call.assert_length(&input, length, &answer);
            }
        }
    }
}

#[test]
fn a_buffer_may_be_much_longer() {
    for call in [&PACK, &UNPACK] {
        for (input, answer) in one_of_each(call) {
            call.assert_much_longer(&input, &answer);
        }
    }
}

// Answers

#[test]
fn an_answer_takes_two_slots() {
    for call in [&PACK, &UNPACK] {
        for (input, _) in one_of_each(call) {
            call.assert_takes_two_slots(&input);
        }
    }
}

#[test]
fn an_answer_fills_two_places_and_leaves_the_rest() {
    for call in [&PACK, &UNPACK] {
        for (input, answer) in one_of_each(call) {
            call.assert_fills_two_slots(&input, &answer);
        }
    }
}
