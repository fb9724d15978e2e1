//! Generators of code buffers with input, fuel and output for the stream run.

use crate::machine::TestCase;
use crate::random::Random;

mod aimed;
mod buffers;
mod draft;
mod fuel;
mod inputs;
mod instructions;
mod limits;
mod running;
mod sensible;
mod tables;

#[cfg(test)]
mod tests;

pub use aimed::aimed;
pub use buffers::{arbitrary, long, not_whole, sequence};
pub use fuel::{any_fuel, at_the_boundary, stops_within, without_end, MODERATE_FUEL};
pub use limits::{deep_calls, full_stack};
pub use running::running;
pub use sensible::sensible;
pub use tables::{hidden, reachable};

/// A case of any kind, with any fuel. The costly kinds are rare.
pub fn any_case(random: &mut Random) -> TestCase {
    let case = match random.below(64) {
        0..=13 => sequence(random),
        14..=27 => running(random),
        28..=39 => sensible(random),
        40..=45 => arbitrary(random),
        46..=49 => not_whole(random),
        50 => long(random),
        51 if random.below(2) == 0 => full_stack(random),
        51 => deep_calls(random),
        _ => return any_aimed(random),
    };
    any_fuel(random, &case)
}

/// Aimed at any mark; half of the time with the fuel at the boundary, where
/// the mark is hidden by 14 or just reported.
fn any_aimed(random: &mut Random) -> TestCase {
    let mark = random.pick(&reachable());
    let case = aimed(random, mark);
    match random.below(4) {
        0 | 1 => at_the_boundary(random, &case),
        2 => any_fuel(random, &case),
        _ => case,
    }
}
