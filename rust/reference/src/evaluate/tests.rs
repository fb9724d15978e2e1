use std::collections::BTreeSet;

use super::*;
use crate::program::{Expr, Function};

mod depth;

const LONG: u64 = 10_000_000;

#[test]
fn known_evaluations() {
    for known in known::all() {
        let answer = evaluate(&known.program, &known.tree, known.most_open, LONG);
        assert_eq!(answer, known.answer, "{}", known.name);
    }
}

#[test]
fn known_evaluations_have_names_of_their_own() {
    let mut names = BTreeSet::new();
    for known in known::all() {
        assert!(names.insert(known.name), "{}", known.name);
    }
}

/// An evaluation that ends is the same with just as many calls and
/// expressions allowed, and given up with fewer.
#[test]
fn known_evaluations_at_their_limits() {
    for known in known::all() {
        let Evaluation::Ended(ended) = &known.answer else {
            continue;
        };
        let with = |open, begun| evaluate(&known.program, &known.tree, open, begun);
        assert_eq!(
            with(ended.open, ended.begun),
            known.answer,
            "{}",
            known.name
        );
        assert_eq!(with(ended.open, ended.begun - 1), Evaluation::TooLong);
        assert_eq!(with(ended.open, 0), Evaluation::TooLong);
        let fewer = with(ended.open - 1, LONG);
        assert!(matches!(fewer, Evaluation::TooManyOpen { .. }));
        let none = with(0, LONG);
        assert_eq!(none, Evaluation::TooManyOpen { begun: 0 });
    }
}

/// An evaluation that breaks off does so with just as many expressions
/// allowed, and is given up with fewer.
#[test]
fn known_evaluations_that_break_off_at_their_limits() {
    let mut count = 0;
    for known in known::all() {
        let Evaluation::SumOutOfRange { begun, .. } = known.answer else {
            continue;
        };
        let with = |begun| evaluate(&known.program, &known.tree, known.most_open, begun);
        assert_eq!(with(begun), known.answer, "{}", known.name);
        assert_eq!(with(begun - 1), Evaluation::TooLong, "{}", known.name);
        count += 1;
    }
    assert!(count >= 15, "{count}");
}

#[test]
fn bytes_and_numbers() {
    assert_eq!(Value::Number(-1).bytes(), []);
    assert_eq!(Value::Number(-1).number(), -1);
    let leaf = Value::Tree(Tree::leaf(-1));
    assert_eq!(leaf.bytes(), [1, 255, 255, 255, 255]);
    assert_eq!(leaf.number(), 0);
}
