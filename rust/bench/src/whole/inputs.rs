//! The inputs: one tree each, written as tokens with no tree in memory.

use bench::programs::{self, Program};
use reference::{Random, Token};

/// The lengths of the inputs. One MB is 1,000,000 bytes.
pub const MEGABYTES: [usize; 8] = [1, 2, 5, 10, 20, 50, 100, 200];

/// Grow, which gives a tree, and Sum, which gives a number.
pub fn programs() -> [Program; 2] {
    let [grow, sum, _] = programs::programs();
    [grow, sum]
}

/// The tips of the largest tree that takes at most so many MB. A tree of n
/// tips takes 6n - 1 bytes.
pub fn tips(megabytes: usize) -> usize {
    (megabytes * 1_000_000 + 1) / 6
}

/// The bytes of a tree with so many tips, at least 1.
pub fn length(tips: usize) -> usize {
    6 * tips - 1
}

/// The bytes of the result on a tree of so many tips.
pub fn result_length(program: &Program, tips: usize) -> usize {
    match program.tree_valued {
        true => length(tips),
        false => 0,
    }
}

/// The tokens of a tree with so many tips, at least 1, and random labels, from -32
/// to 31: so the sum of the largest input is in range.
pub fn tree(random: &mut Random, tips: usize) -> Vec<u8> {
    let mut tokens = Vec::with_capacity(length(tips));
    let mut pending = vec![tips];
    while let Some(tips) = pending.pop() {
        if tips == 1 {
            Token::Leaf(random.below(64) as i32 - 32).write(&mut tokens);
        } else {
            let left = left_tips(random, tips);
            Token::Node.write(&mut tokens);
            pending.push(tips - left);
            pending.push(left);
        }
    }
    tokens
}

/// How many of a node's tips go to its left part: from a quarter of them to
/// three quarters. So the largest input is some 60 nodes deep at the most,
/// and 1,024 open calls are never used up.
fn left_tips(random: &mut Random, tips: usize) -> usize {
    let least = (tips / 4).max(1);
    least + random.below(tips - 2 * least + 1)
}

/// The input of a benchmark.
pub fn input(tips: usize) -> Vec<u8> {
    tree(&mut Random::new(1), tips)
}
