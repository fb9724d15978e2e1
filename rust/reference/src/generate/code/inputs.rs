//! Inputs and outputs of a case.

use crate::generate::sums::{total_in_range, total_out_of_range, with_total};
use crate::generate::{damaged, mixed_caterpillar, tag_like_bytes, tree};
use crate::machine::{TestCase, OPEN_LIMIT};
use crate::random::Random;
use crate::tree::Tree;

/// Room for more than most runs write.
const AMPLE: usize = 10_000;

/// Tokens of a tree: whole, cut, damaged, with more after them, or none.
pub fn input(random: &mut Random) -> Vec<u8> {
    let tips = match random.below(8) {
        0 => 1 + random.below(40),
        1 | 2 => 1,
        _ => 1 + random.below(6),
    };
    let mut tokens = any_tree(random, tips).tokens();
    match random.below(8) {
        0 => tokens.clear(),
        1 => tokens.truncate(random.below(tokens.len() + 1)),
        2 | 3 => tokens = damaged(random, &tokens),
        4 => tokens.extend(stray(random)),
        _ => (),
    }
    tokens
}

/// A tree of so many tips; at times the sum of its labels is at an end of the
/// range or next to it.
fn any_tree(random: &mut Random, tips: usize) -> Tree {
    let tree = tree(random, tips);
    let total = match random.below(6) {
        0 => total_in_range(random),
        1 if tips > 1 => total_out_of_range(random),
        _ => return tree,
    };
    with_total(random, &tree, total)
}

/// Tokens of a caterpillar about as deep as calls can be open.
pub fn deep_input(random: &mut Random) -> Vec<u8> {
    let depth = OPEN_LIMIT - 3 + random.below(5);
    mixed_caterpillar(random, depth).tokens()
}

/// 0 to 9 bytes, most of them tags.
pub fn stray(random: &mut Random) -> Vec<u8> {
    let length = random.below(10);
    tag_like_bytes(random, length)
}

/// A small output length.
pub fn output(random: &mut Random) -> usize {
    match random.below(4) {
        0 => random.below(4),
        1 => AMPLE,
        _ => random.below(24),
    }
}

/// The case with an output that is about as long as what it writes, given room:
/// exactly so, a few bytes shorter or longer.
pub fn fitted(random: &mut Random, case: TestCase) -> TestCase {
    let roomy = TestCase {
        output: AMPLE,
        ..case
    };
    let (ran, _) = roomy.perform();
    let output = match random.below(4) {
        0 => ran.written,
        1 => ran.written.saturating_sub(1 + random.below(6)),
        2 => ran.written + random.below(6),
        _ => random.below(ran.written + 1),
    };
    TestCase { output, ..roomy }
}
