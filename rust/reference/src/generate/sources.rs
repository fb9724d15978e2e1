//! Generators of source runs: of programs that pass pass one, in order and
//! out of order.

use crate::machine::{OPEN_LIMIT, RETURN_WORDS, VALUE_WORDS};
use crate::order::Fault;
use crate::program::{lay_out, Program};
use crate::random::Random;
use crate::source::SourceCase;
use crate::tree::{Tree, DEPTH_LIMIT};

use super::evaluated::{any_program as in_order, deep_tree, small_tree};
use super::{changed_program, damaged, damaged_file, order_damage, sums};

#[cfg(test)]
mod tests;
mod unordered;

pub use unordered::{crowded, descending, many_names, unordered};

/// So many expressions may begin in a run with any fuel.
pub const MODERATE: u64 = 20_000;

/// The result of so many expressions is shorter: a leaf of 5 bytes takes at
/// least two expressions, and a node of 1 byte takes one.
const LONGEST_RESULT: usize = 3 * MODERATE as usize;

/// Any source run: mostly of a right file on a tree with space, fuel and
/// output enough or nearly so, sometimes with a file, an input or space that
/// is refused. No more than `MODERATE` expressions begin.
pub fn any_source(random: &mut Random) -> SourceCase {
    let (program, tree) = any_program_and_tree(random);
    let file = any_file(random, &program);
    let input = any_input(random, &tree.tokens());
    let (values, returns) = any_space(random);
    let case = SourceCase {
        values,
        returns,
        ..SourceCase::new(&file, &input, MODERATE, LONGEST_RESULT)
    };
    with_fuel_and_output(random, case)
}

/// A program that passes pass one, and a tree. A third of the programs pass
/// pass two as well; few of the others do.
pub fn any_program_and_tree(random: &mut Random) -> (Program, Tree) {
    match random.below(12) {
        0 => sums::program_and_tree(random),
        1..=3 => (in_order(random), any_tree(random)),
        4..=6 => (descending(random), any_tree(random)),
        7 | 8 => (unordered(random), any_tree(random)),
        9 => (crowded(random), any_tree(random)),
        _ => {
            let depth = 60 + random.below(DEPTH_LIMIT - 60);
            (many_names(random), deep_tree(random, depth))
        }
    }
}

/// A tree: small, or with a long path to the left, to the right or to either,
/// sometimes so long that the tree reader refuses it.
pub fn any_tree(random: &mut Random) -> Tree {
    let depth = match random.below(16) {
        0 => DEPTH_LIMIT - 3 + random.below(7),
        1 => OPEN_LIMIT - 40 + random.below(60),
        2 => random.below(1_000),
        3 | 4 => random.below(60),
        _ => return small_tree(random),
    };
    deep_tree(random, depth)
}

/// The program's file; sometimes damaged, or of a changed program, or of
/// another that pass one refuses.
fn any_file(random: &mut Random, program: &Program) -> Vec<u8> {
    let file = lay_out(&program.records());
    match random.below(24) {
        0 | 1 => damaged_file(random, &file),
        2 | 3 => lay_out(&changed_program(random, program).records()),
        4 => lay_out(&refused_program(random).records()),
        _ => file,
    }
}

/// A program with one of the faults of pass one.
fn refused_program(random: &mut Random) -> Program {
    let mut faults = Fault::ALL.to_vec();
    faults.retain(|fault| fault.number() <= 10);
    loop {
        let program = in_order(random);
        let fault = random.pick(&faults);
        if let Some((refused, _)) = order_damage::apply(fault, random, &program) {
            return refused;
        }
    }
}

/// The tokens, often with bytes after them, sometimes damaged.
fn any_input(random: &mut Random, tokens: &[u8]) -> Vec<u8> {
    match random.below(12) {
        0 | 1 => damaged(random, tokens),
        2..=4 => {
            let more = (0..1 + random.below(8)).map(|_| random.byte());
            tokens.iter().copied().chain(more).collect()
        }
        _ => tokens.to_vec(),
    }
}

/// Mostly just as many value words and return words as there must be.
fn any_space(random: &mut Random) -> (usize, usize) {
    let (mut values, mut returns) = (VALUE_WORDS, RETURN_WORDS);
    match random.below(24) {
        0 => values = VALUE_WORDS - 1 - random.pick(&[0, 1, VALUE_WORDS - 1]),
        1 => returns = RETURN_WORDS - 1 - random.pick(&[0, 1, RETURN_WORDS - 1]),
        2 => values += 1 + random.below(100),
        3 => returns += 1 + random.below(100),
        _ => {}
    }
    (values, returns)
}

/// The run with fuel near to the number of expressions that begin, and with
/// an output about as long as the result, which is found by a run with
/// moderate fuel and output enough.
fn with_fuel_and_output(random: &mut Random, case: SourceCase) -> SourceCase {
    let (answer, _) = case.perform();
    let begun = answer.begun;
    let part = random.below(begun as usize + 1) as u64;
    let fuel = match random.below(10) {
        0 => random.below(4) as u64,
        1 | 2 => part,
        3 => begun.saturating_sub(1),
        4 | 5 => begun,
        6 => begun + 1,
        _ => u64::MAX,
    };
    let ends_in_time = answer.refused.is_none_or(|refusal| refusal.number != 14);
    SourceCase {
        fuel: if ends_in_time {
            fuel
        } else {
            fuel.min(MODERATE)
        },
        output: any_room(random, answer.written),
        ..case
    }
}

/// As long as the result, longer, or shorter.
fn any_room(random: &mut Random, result: usize) -> usize {
    match random.below(8) {
        0 => random.below(result + 1),
        1 => result.saturating_sub(1),
        2 => result + 1 + random.below(50),
        3 => 0,
        _ => result,
    }
}
