//! The row prefix form, and the order between rows.

use super::rows::{records, with, Nodes, ADD, C, LEAF};
use super::*;

// Prefix form

#[test]
fn too_few_and_too_many_records() {
    assert_records_refused(&records(&[(0, &[LEAF])]), 7, 2);
    assert_records_refused(&records(&[(0, &[C, C])]), 7, 2);
    assert_records_refused(&records(&[(0, &[ADD, C])]), 7, 2);
    assert_records_refused(&records(&[(0, &[ADD, C, C, C])]), 7, 2);
    assert_records_refused(&records(&[(0, &[C, ADD, C])]), 7, 2);
    assert_records_refused(&records(&[(0, &[C, C, ADD])]), 7, 2);
    assert_records_refused(&records(&[(0, &[ADD, C, C, LEAF])]), 7, 2);
    assert_records_refused(&records(&[(0, &[C]), (0, &[C, C]), (0, &[C])]), 7, 5);
    assert_records_refused(&records(&[(0, &[C]), (0, &[C]), (0, &[LEAF])]), 7, 6);
}

/// One function's expression may not run on into the next one's records,
/// though all records together are one expression after the other.
#[test]
fn nodes_moved_between_functions() {
    let good = records(&[(0, &[ADD, C, C]), (0, &[LEAF, C]), (0, &[C])]);
    assert!(Program::from_records(&good).is_ok());
    for (counts, position) in [
        ([2, 3, 1], 4),
        ([4, 1, 1], 4),
        ([1, 4, 1], 4),
        ([3, 1, 2], 7),
        ([2, 2, 2], 4),
        ([2, 1, 3], 4),
        ([1, 1, 4], 4),
    ] {
        let mut records = good.clone();
        for (k, &count) in counts.iter().enumerate() {
            records[8 * (1 + k) + 2] = count;
        }
        assert_records_refused(&records, 7, position);
    }
}

#[test]
fn a_call_has_its_functions_number_of_arguments() {
    let callee: Nodes = (2, &[C]);
    let call = (8, 0, 1);
    assert!(Program::from_records(&records(&[(0, &[call, C, C]), callee])).is_ok());
    assert_records_refused(&records(&[(0, &[call]), callee]), 7, 3);
    assert_records_refused(&records(&[(0, &[call, C]), callee]), 7, 3);
    assert_records_refused(&records(&[(0, &[call, C, C, C]), callee]), 7, 3);
    let itself: Nodes = (1, &[call, call, C]);
    assert!(Program::from_records(&records(&[(0, &[C]), itself])).is_ok());
}

/// One expression, recognised by counting: `open` parts are still to come.
fn is_one_expression(nodes: &[Record], parameters: &[u8]) -> bool {
    let mut open = 1;
    for &node in nodes {
        if open == 0 {
            return false;
        }
        open += part_count(node, parameters).unwrap();
        open -= 1;
    }
    open == 0
}

#[test]
fn prefix_form_is_what_counting_says() {
    let mut random = Random::new(41);
    let mut accepted = 0;
    for _ in 0..3000 {
        let functions = 1 + random.below(3);
        let nodes = functions + random.below(6);
        let bytes = programs::loose_records(&mut random, functions, nodes);
        let records = Record::list(&bytes);
        let parameters: Vec<u8> = records[1..=functions].iter().map(|r| r.a).collect();
        let mut first = 1 + functions;
        let wrong = records[1..=functions].iter().find_map(|function| {
            let end = first + usize::from(function.b);
            let right = is_one_expression(&records[first..end], &parameters);
            let position = first;
            first = end;
            (!right).then_some(Refusal {
                number: 7,
                position,
            })
        });
        let found = Program::from_records(&bytes);
        assert_eq!(found.as_ref().err(), wrong.as_ref());
        if let Ok(program) = found {
            assert_eq!(program.records(), bytes);
            accepted += 1;
        }
    }
    assert!((100..2900).contains(&accepted));
}

// Order between rows

#[test]
fn each_row_is_finished_before_the_next() {
    let good = records(&[(0, &[LEAF, C]), (0, &[LEAF, C])]);
    let seven = with(&good, 3, 0, 0);
    assert_records_refused(&seven, 7, 3);
    let six = with(&seven, 6, 3, 1);
    assert_records_refused(&six, 6, 6);
    let sum = with(&six, 1, 2, 3);
    assert_records_refused(&sum, 5, 2);
    let five = with(&sum, 2, 4, 1);
    assert_records_refused(&five, 5, 2);
    let earlier = with(&five, 1, 0, 2);
    assert_records_refused(&earlier, 5, 1);
    let four = with(&earlier, 0, 7, 1);
    assert_records_refused(&four, 4, 0);
}

#[test]
fn the_first_faulty_record_of_a_row() {
    let good = records(&[(0, &[LEAF, C]), (0, &[LEAF, C])]);
    assert_records_refused(&with(&with(&good, 6, 0, 9), 5, 2, 1), 6, 5);
    assert_records_refused(&with(&with(&good, 3, 0, 0), 5, 0, 0), 7, 3);
    assert_records_refused(&with(&with(&good, 1, 2, 0), 2, 2, 0), 5, 1);
}
