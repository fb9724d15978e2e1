//! The fuel of a case.

use crate::machine::TestCase;
use crate::random::Random;

use super::tables::FUEL_USED_UP;

/// The most fuel of a case that may not stop by itself. It lets the stack be
/// filled and every call be opened.
pub const MODERATE_FUEL: u64 = 40_000;

/// Fuel of more than 32 bits; some of it is 0 or less in a narrower width.
const MUCH: [u64; 4] = [u64::MAX, u64::MAX, 1 << 63, 1 << 32];

/// Fuel to `MODERATE_FUEL`, each order of magnitude about as likely.
pub fn moderate(random: &mut Random) -> u64 {
    let bound = MODERATE_FUEL >> random.below(12);
    random.below(bound as usize + 1) as u64
}

/// The case with its own fuel, or with little, moderate, nearly enough or
/// endless fuel.
pub fn any_fuel(random: &mut Random, case: &TestCase) -> TestCase {
    match random.below(16) {
        0 | 1 => case.with_fuel(random.below(16) as u64),
        2 | 3 => case.with_fuel(moderate(random)),
        4..=7 => at_the_boundary(random, case),
        8 if stops_within(case, MODERATE_FUEL) => case.with_fuel(random.pick(&MUCH)),
        _ => case.clone(),
    }
}

/// The case with as much fuel as its run uses, one unit less or one more.
pub fn at_the_boundary(random: &mut Random, case: &TestCase) -> TestCase {
    let units = units_within(case, MODERATE_FUEL);
    let fuel = match random.below(4) {
        0 => units.saturating_sub(1),
        1 => MODERATE_FUEL.min(units + 1),
        _ => units,
    };
    case.with_fuel(fuel)
}

/// The units of the run with the case's own fuel, or no more than the bound.
pub fn units_within(case: &TestCase, bound: u64) -> u64 {
    let (ran, _) = case.with_fuel(case.fuel.min(bound)).perform();
    ran.units
}

/// Whether the run stops by itself with fuel as the bound, so that more fuel
/// changes nothing.
pub fn stops_within(case: &TestCase, bound: u64) -> bool {
    let (ran, _) = case.with_fuel(bound).perform();
    ran.refusal
        .is_none_or(|refusal| refusal.number != FUEL_USED_UP)
}

/// The case with the most fuel there is, if it stops within the bound.
pub fn without_end(case: &TestCase, bound: u64) -> Option<TestCase> {
    stops_within(case, bound).then(|| case.with_fuel(u64::MAX))
}
