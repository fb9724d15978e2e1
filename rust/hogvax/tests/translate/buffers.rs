//! Lent code buffers of every length, and the slots of the answer.

use reference::generate::ordered;
use reference::translate::known;
use reference::Random;

use super::*;

/// A file for each answer, 13 aside.
fn one_of_each() -> Vec<(Vec<u8>, Answer)> {
    let files = known::all().into_iter().map(|known| known.file);
    let mut all: Vec<(Vec<u8>, Answer)> = Vec::new();
    for file in files {
        let answer = TRANSLATE.reference_answer(&file);
        if all
            .iter()
            .all(|(_, other)| number(other) != number(&answer))
        {
            all.push((file, answer));
        }
    }
    let mut seen: Vec<u32> = all.iter().map(|(_, answer)| number(answer)).collect();
    seen.push(13);
    seen.sort_unstable();
    assert_eq!(seen, TRANSLATE.answers);
    all
}

#[test]
fn code_buffers_of_every_length() {
    let mut random = Random::new(330);
    for known in known::translated() {
        let step = if known.file.len() == 512 { 1 } else { 509 };
        TRANSLATE.assert_lengths(&known.file, step);
    }
    for functions in [1, 2, 8, 32] {
        let program = ordered::program(&mut random, functions, 20 * functions);
        TRANSLATE.assert_lengths(&file(&program), 7);
    }
}

#[test]
fn every_refusal_comes_before_short_buffers() {
    for (input, answer) in one_of_each() {
        for length in [0, 1, 7, 8, 9, 103, 104, 105, TRANSLATE.long] {
            TRANSLATE.assert_length(&input, length, &answer);
        }
    }
}

#[test]
fn a_buffer_may_be_much_longer() {
    for (input, answer) in one_of_each() {
        TRANSLATE.assert_much_longer(&input, &answer);
    }
}

#[test]
fn an_answer_takes_two_slots() {
    for (input, _) in one_of_each() {
        TRANSLATE.assert_takes_two_slots(&input);
    }
}

#[test]
fn an_answer_fills_two_places_and_leaves_the_rest() {
    for (input, answer) in one_of_each() {
        TRANSLATE.assert_fills_two_slots(&input, &answer);
    }
}
