//! Deep trees, where about 1,024 calls are open.

use super::evaluated::{breaks, ends, too_many, Subject};
use crate::evaluate::Evaluation;
use crate::generate::evaluated::{any_program, deep_tree};
use crate::generate::sums::with_moderate_labels;
use crate::machine::OPEN_LIMIT;
use crate::program::Program;
use crate::random::Random;

/// No tree of these tests is deeper.
const DEEPEST: usize = 4_000;

/// The program on a tree of that depth; equal seeds give trees alike. Their
/// labels alone have a sum that fits.
fn at_depth(program: &Program, seed: u64, depth: usize) -> Subject {
    let random = &mut Random::new(seed);
    let tree = deep_tree(random, depth);
    Subject::new(program.clone(), with_moderate_labels(random, &tree))
}

fn ends_in_time(program: &Program, seed: u64, depth: usize) -> bool {
    let evaluation = at_depth(program, seed, depth).evaluate(OPEN_LIMIT);
    matches!(evaluation, Evaluation::Ended(_))
}

/// A depth where the program ends with at most 1,024 calls open, while it does
/// not with one level more, if there is one. There it may also break off at a
/// sum.
fn last_depth(program: &Program, seed: u64) -> Option<usize> {
    let (mut low, mut high) = (0, DEEPEST);
    if !ends_in_time(program, seed, low) || ends_in_time(program, seed, high) {
        return None;
    }
    while high - low > 1 {
        let middle = (low + high) / 2;
        if ends_in_time(program, seed, middle) {
            low = middle;
        } else {
            high = middle;
        }
    }
    Some(low)
}

#[test]
fn about_1024_calls_open() {
    let mut random = Random::new(402);
    let (mut all, mut exactly, mut one_more, mut broken) = (0, 0, 0, 0);
    for seed in 0..80 {
        let program = any_program(&mut random);
        let Some(depth) = last_depth(&program, seed) else {
            continue;
        };
        let subject = at_depth(&program, seed, depth);
        let Evaluation::Ended(ended) = subject.evaluate(OPEN_LIMIT) else {
            panic!("{subject:?}");
        };
        ends(&mut random, &subject, &ended);
        let subject = at_depth(&program, seed, depth + 1);
        match subject.evaluate(OPEN_LIMIT) {
            Evaluation::TooManyOpen { begun } => too_many(&mut random, &subject, begun),
            Evaluation::SumOutOfRange { begun, units, .. } => {
                breaks(&mut random, &subject, begun, units);
                broken += 1;
                continue;
            }
            _ => panic!("{subject:?}"),
        }
        all += 1;
        exactly += usize::from(ended.open == OPEN_LIMIT);
        let with_one_more = subject.evaluate(OPEN_LIMIT + 1);
        one_more += usize::from(matches!(with_one_more, Evaluation::Ended(_)));
    }
    let seen = [all, exactly, one_more];
    println!("{seen:?}, {broken} broken");
    assert!(seen.iter().all(|&count| count >= 40), "{seen:?}");
}
