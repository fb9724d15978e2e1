//! Generators of runs of program files.

use crate::evaluate::{evaluate, Evaluation};
use crate::machine::{INSTRUCTION_BYTES, INSTRUCTION_LIMIT, OPEN_LIMIT};
use crate::machine::{RETURN_WORDS, VALUE_WORDS};
use crate::program::{lay_out, Program};
use crate::random::Random;
use crate::run::RunCase;
use crate::translate::translate_program;
use crate::tree::Tree;

use super::evaluated::{any_program, deep_tree, small_tree};
use super::{changed_program, damaged, damaged_file, sums};

#[cfg(test)]
mod tests;

/// An evaluation may begin so many expressions for a run with any fuel.
const MODERATE: u64 = 100_000;

/// Any run: mostly of a right file on a tree with space and fuel enough or
/// nearly so, sometimes with a file, an input or space that is refused.
pub fn any_run(random: &mut Random) -> RunCase {
    let (program, tree) = match random.below(8) {
        0 => sums::program_and_tree(random),
        _ => (any_program(random), any_tree(random)),
    };
    let tokens = tree.tokens();
    let (fuel, result) = fuel_and_result(random, &program, &tree);
    let code = INSTRUCTION_BYTES * translate_program(&program).len();
    let mut case = RunCase {
        file: any_file(random, &program),
        input: any_input(random, &tokens),
        fuel,
        output: any_room(random, result),
        code: any_code_room(random, code),
        value_words: VALUE_WORDS,
        return_words: RETURN_WORDS,
    };
    match random.below(24) {
        0 => case.value_words = VALUE_WORDS - 1 - random.pick(&[0, 1, VALUE_WORDS - 1]),
        1 => case.return_words = RETURN_WORDS - 1 - random.pick(&[0, 1, RETURN_WORDS - 1]),
        2 => case.value_words += 1 + random.below(100),
        3 => case.return_words += 1 + random.below(100),
        _ => {}
    }
    case
}

fn any_tree(random: &mut Random) -> Tree {
    match random.below(30) {
        0 => {
            let depth = 1_000 + random.below(50);
            deep_tree(random, depth)
        }
        1 | 2 => {
            let depth = random.below(60);
            deep_tree(random, depth)
        }
        _ => small_tree(random),
    }
}

/// Fuel and the length of the result; a length at random where there is none.
/// Fuel is none, a little, any up to what is needed, just enough, one less,
/// 4n + 1, or the most there is. To be refused 21 a run needs a unit more than
/// it performs.
fn fuel_and_result(random: &mut Random, program: &Program, tree: &Tree) -> (u64, usize) {
    match evaluate(program, tree, OPEN_LIMIT, MODERATE) {
        Evaluation::Ended(ended) => {
            let part = random.below(ended.units as usize) as u64;
            let enough = [ended.units + 1, 4 * ended.begun + 1, u64::MAX];
            let fuel = match random.below(8) {
                0 => random.below(4) as u64,
                1 => part,
                2 => ended.units,
                _ => random.pick(&enough),
            };
            (fuel, ended.value.bytes().len())
        }
        Evaluation::TooManyOpen { begun } => {
            let part = random.below(1 + 2 * begun as usize) as u64;
            let fuel = random.pick(&[part, 4 * begun, u64::MAX]);
            (fuel, random.below(20_000))
        }
        Evaluation::TooLong => (random.below(10_000) as u64, random.below(2_000)),
        Evaluation::SumOutOfRange { begun, units, .. } => {
            let part = random.below(1 + units as usize) as u64;
            let enough = [units + 1, 4 * begun + 1, u64::MAX];
            let fuel = match random.below(8) {
                0 => part,
                1 | 2 => units,
                _ => random.pick(&enough),
            };
            let most = 3 * begun as usize;
            let less = random.below(most + 1);
            (fuel, random.pick(&[most, most, less]))
        }
    }
}

/// The program's file; sometimes damaged, or of a changed program.
fn any_file(random: &mut Random, program: &Program) -> Vec<u8> {
    let file = lay_out(&program.records());
    match random.below(10) {
        0 => damaged_file(random, &file),
        1 => lay_out(&changed_program(random, program).records()),
        _ => file,
    }
}

/// The tokens, often with bytes after them, sometimes damaged.
fn any_input(random: &mut Random, tokens: &[u8]) -> Vec<u8> {
    match random.below(8) {
        0 | 1 => damaged(random, tokens),
        2..=4 => {
            let more = (0..1 + random.below(8)).map(|_| random.byte());
            tokens.iter().copied().chain(more).collect()
        }
        _ => tokens.to_vec(),
    }
}

/// As long as the result, longer, or shorter.
fn any_room(random: &mut Random, result: usize) -> usize {
    match random.below(6) {
        0 => random.below(result + 1),
        1 => result.saturating_sub(1),
        2 => result + 1 + random.below(50),
        _ => result,
    }
}

/// As long as the code, longer, or, rarely, shorter.
fn any_code_room(random: &mut Random, code: usize) -> usize {
    match random.below(12) {
        0 => code - 1,
        1 => random.below(code),
        2..=4 => code + 1 + random.below(50),
        5 => INSTRUCTION_BYTES * INSTRUCTION_LIMIT + random.below(20),
        _ => code,
    }
}
