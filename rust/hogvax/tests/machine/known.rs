//! Codes with known answers: document 01's worked cases, each effect and each
//! refusal of each opcode, and the limits.

use std::collections::BTreeSet;

use reference::generate::code;
use reference::machine::known::{self, Known};

use super::run_call::assert_gives_alone;
use super::*;

#[test]
fn known_codes_have_their_answers() {
    let mut lent = Lent::new();
    let mut seen = BTreeSet::new();
    for known in known::all() {
        let expected = Gave::told(known.answer, known.bytes, vec![]);
        lent.assert_gives(known.name, &known.case, &expected);
        seen.insert(known.stop.mark);
    }
    assert_eq!(seen, code::reachable().into_iter().collect());
}

/// With fuel for no more than one instruction more, which gives the same.
fn in_time(known: &Known) -> TestCase {
    let fuel = known.case.fuel.min(known.answer.units + 1);
    known.case.with_fuel(fuel)
}

/// With a work space of its own.
#[test]
fn known_codes_have_their_answers_in_a_new_work_space() {
    for known in known::all() {
        let case = in_time(&known);
        let expected = Gave::told(known.answer, known.bytes, vec![]);
        assert_gives_alone(known.name, &case, &expected);
    }
}

/// Each after every run that is long and leaves much in its work words, which
/// does not matter to the next.
#[test]
fn known_codes_one_after_another() {
    let mut lent = Lent::new();
    let all = known::all();
    let mut pairs = 0;
    for first in all.iter().filter(|known| known.answer.units > 10_000) {
        for known in &all {
            let _ = lent.call_into(&in_time(first));
            let gave = lent.call_into(&in_time(known));
            let expected = Gave::told(known.answer, known.bytes.clone(), vec![]);
            assert_eq!(gave, expected, "{} after {}", known.name, first.name);
            pairs += 1;
        }
    }
    assert!(pairs > 1_000, "{pairs} pairs");
}
