//! Runs with known answers: document 01's worked cases, worked evaluations,
//! and buffers that are too short.

use reference::run::known;

use super::known_runs::{assert_answers, assert_answers_alone, assert_sign_extended, Known};
use super::*;

/// What a run answers: 19 and 20 are never its refusals.
pub const ANSWERS: [u32; 20] = [
    0, 1, 2, 3, 4, 5, 6, 7, 8, 9, 10, 11, 12, 13, 14, 15, 16, 17, 18, 21,
];

/// The reference's known runs.
pub fn all() -> Vec<Known<RunCase, 5>> {
    let known = known::all().into_iter().map(|known| Known {
        name: known.name,
        case: known.case,
        gave: Gave::told(known.answer, known.output, known.code),
        number: known.answer.number,
    });
    known.collect()
}

#[test]
fn known_runs_have_their_answers() {
    let seen = assert_answers(&mut Lent::new(), &all());
    assert!(seen.keys().copied().eq(ANSWERS), "{seen:?}");
}

#[test]
fn known_runs_have_their_answers_in_a_new_work_space() {
    assert_answers_alone(&all());
}

#[test]
fn the_number_is_sign_extended() {
    assert_sign_extended(&mut Lent::new(), &all());
}
