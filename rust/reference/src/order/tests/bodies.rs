//! Every short program, by both ways to perform pass two.

use super::*;
use crate::generate::Alphabet;

/// All programs of up to so many records: how many there are, and how many
/// pass.
fn counts(alphabet: &Alphabet, longest: usize) -> (usize, usize) {
    let (mut all, mut passed) = (0, 0);
    for (length, tree_valued) in (1..=longest).flat_map(|n| [(n, false), (n, true)]) {
        alphabet.every_program(length, tree_valued, &mut |program| {
            all += 1;
            if pass_one::check(program).is_ok() {
                assert!(ways_agree(program), "{:?}", program.functions);
                passed += usize::from(walk::check(program).is_ok());
            }
        });
    }
    (all, passed)
}

#[test]
fn every_body_of_up_to_five_records() {
    assert_eq!(counts(&Alphabet::SIX_RECORDS, 5), (146_512, 70));
}

#[test]
fn every_body_of_up_to_five_records_with_arguments() {
    assert_eq!(counts(&Alphabet::WITH_ARGUMENTS, 5), (47_410, 99));
}

#[test]
fn every_body_of_up_to_six_records() {
    let alphabet = Alphabet {
        numbers: 0,
        cases: 1,
        calls: 3,
        calls_with_argument: None,
        trees: false,
    };
    assert_eq!(counts(&alphabet, 6), (66_396, 124));
}
