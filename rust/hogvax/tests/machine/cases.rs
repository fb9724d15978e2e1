//! Cases that are short enough to be tried in many ways.

use reference::generate::{self, code};
use reference::machine::known::programs::{listed, FILL, GROW, SUM};
use reference::{assemble, Random};

use super::*;

/// A run of a listed program.
pub fn worked(listing: &str, input: Vec<u8>, fuel: u64, output: usize) -> TestCase {
    let code = assemble(&listed(listing));
    TestCase {
        code,
        input,
        fuel,
        output,
    }
}

/// The worked programs on trees of up to eight tips, with fuel and room
/// enough.
fn worked_programs(random: &mut Random) -> Vec<TestCase> {
    let mut cases = Vec::new();
    for tips in 1..=8 {
        let input = generate::tree(random, tips).tokens();
        for listing in [GROW, SUM, FILL] {
            cases.push(worked(listing, input.clone(), 100_000, input.len()));
        }
    }
    cases
}

/// So many cases: the worked programs, then any whose code is short, whose run
/// performs 1 to so many instructions, and reads and writes no more than 100
/// bytes.
pub fn short(seed: u64, count: usize, most: u64) -> Vec<TestCase> {
    let mut random = Random::new(seed);
    let mut cases = worked_programs(&mut random);
    while cases.len() < count {
        let case = code::any_case(&mut random);
        let (ran, _) = case.perform();
        let bytes = ran.read.max(ran.written);
        if (1..=most).contains(&ran.units) && bytes <= 100 && case.code.len() < 1_000 {
            cases.push(case);
        }
    }
    cases
}
