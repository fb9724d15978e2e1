//! The fuels of a case.

use super::*;
use crate::machine::assemble;
use crate::machine::mnemonic::{jump, push, ret};

/// A push, a push and a return.
fn three_units() -> TestCase {
    TestCase {
        code: assemble(&[push(1), push(2), ret(1)]),
        input: Vec::new(),
        fuel: MODERATE_FUEL,
        output: 0,
    }
}

fn endless() -> TestCase {
    TestCase {
        code: assemble(&[jump(0)]),
        ..three_units()
    }
}

#[test]
fn a_run_stops_within_the_units_it_needs() {
    let bounds = [(0, false), (2, false), (3, true), (u64::MAX, true)];
    for (bound, stops) in bounds {
        assert_eq!(stops_within(&three_units(), bound), stops);
        let case = without_end(&three_units(), bound);
        assert_eq!(case.is_some(), stops);
        assert!(case.is_none_or(|case| case.fuel == u64::MAX));
    }
    assert!(!stops_within(&endless(), MODERATE_FUEL));
    assert_eq!(without_end(&endless(), MODERATE_FUEL), None);
}

#[test]
fn the_boundary_is_told_exactly() {
    let mut random = Random::new(40);
    let fuels = |random: &mut Random, case: &TestCase| {
        let mut fuels: Vec<u64> = (0..100)
            .map(|_| at_the_boundary(random, case).fuel)
            .collect();
        fuels.sort();
        fuels.dedup();
        fuels
    };
    assert_eq!(fuels(&mut random, &three_units()), [2, 3, 4]);
    assert_eq!(fuels(&mut random, &endless().with_fuel(9)), [8, 9, 10]);
    assert_eq!(fuels(&mut random, &endless()), [39_999, 40_000]);
    let empty = TestCase {
        code: Vec::new(),
        ..endless()
    };
    assert_eq!(fuels(&mut random, &empty), [0, 1]);
}

#[test]
fn every_run_of_the_mix_stops_in_time() {
    let cases = cases(41, any_case);
    for case in &cases {
        let (ran, _) = case.perform();
        assert!(ran.units <= MODERATE_FUEL, "{case:?}");
        let moderate = case.fuel <= MODERATE_FUEL;
        assert!(moderate || stops_within(case, MODERATE_FUEL), "{case:?}");
    }
    let fuels: Vec<u64> = cases.iter().map(|case| case.fuel).collect();
    for fuel in [0, 1, 2, MODERATE_FUEL, u64::MAX] {
        assert!(fuels.contains(&fuel), "{fuel}");
    }
}

#[test]
fn a_fuel_changes_nothing_else() {
    let mut random = Random::new(42);
    for _ in 0..OF_A_KIND {
        let case = sequence(&mut random);
        let other = any_fuel(&mut random, &case);
        assert_eq!(other.with_fuel(case.fuel), case);
    }
}
