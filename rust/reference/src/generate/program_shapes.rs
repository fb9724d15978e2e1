//! Programs of one shape only, and programs at the limits.

use crate::program::{Expr, Program, FUNCTION_LIMIT, NODE_LIMIT};
use crate::random::Random;

use super::programs::{by_choice, of_bodies, program, program_of_records, record};

/// A program whose second function, of one record, has so many number
/// parameters, and whose first is made of so many records, at least 1, by
/// `parts`: it gives the sizes of an expression's parts.
fn by_parts(
    random: &mut Random,
    nodes: usize,
    called: u8,
    parts: fn(usize) -> Vec<usize>,
) -> Program {
    let parameters = [0, called];
    of_bodies(random, &parameters, |random, k| {
        let nodes = if k == 0 { nodes } else { 1 };
        by_choice(nodes, |nodes| {
            let parts = parts(nodes - 1);
            (record(random, parts.len(), &parameters), parts)
        })
    })
}

/// All that is left to one part: Leaf, or a Call with one argument.
pub fn chain(random: &mut Random, nodes: usize) -> Program {
    by_parts(random, nodes, 1, |rest| match rest {
        0 => vec![],
        _ => vec![rest],
    })
}

/// Records with two parts, the right one a single record.
pub fn left_comb(random: &mut Random, nodes: usize) -> Program {
    by_parts(random, nodes, 2, |rest| match rest {
        0 => vec![],
        1 => vec![1],
        _ => vec![rest - 1, 1],
    })
}

/// Records with two parts, the left one a single record.
pub fn right_comb(random: &mut Random, nodes: usize) -> Program {
    by_parts(random, nodes, 2, |rest| match rest {
        0 => vec![],
        1 => vec![1],
        _ => vec![1, rest - 1],
    })
}

/// Calls with four arguments, as even as can be.
pub fn wide_calls(random: &mut Random, nodes: usize) -> Program {
    by_parts(random, nodes, 4, |rest| match rest {
        0 => vec![],
        1..=3 => vec![rest],
        _ => (0..4).map(|k| (rest + k) / 4).collect(),
    })
}

/// Calls with four arguments, all but the last of them single records.
pub fn deep_calls(random: &mut Random, nodes: usize) -> Program {
    by_parts(random, nodes, 4, |rest| match rest {
        0 => vec![],
        1..=3 => vec![rest],
        _ => vec![1, 1, 1, rest - 3],
    })
}

/// One function of so many records: Leafs nested in each other around a
/// Const or Var.
pub fn leaf_chain(random: &mut Random, nodes: usize) -> Program {
    of_bodies(random, &[0], |random, _| {
        let inner = record(random, 0, &[]);
        let mut body = Expr::from_record(inner, vec![]).expect("no parts");
        for _ in 1..nodes {
            body = Expr::leaf(body);
        }
        body
    })
}

/// So many functions of one record each.
pub fn single_records(random: &mut Random, functions: usize) -> Program {
    program(random, functions, functions)
}

/// Programs at the limits: the least, the most of each, one way of nesting
/// only, and every number of blocks with the last one full or of one record.
pub fn extremes(random: &mut Random) -> Vec<Program> {
    let mut programs = vec![
        single_records(random, 1),
        single_records(random, FUNCTION_LIMIT),
        leaf_chain(random, NODE_LIMIT),
        program(random, 1, NODE_LIMIT),
        program(random, FUNCTION_LIMIT, NODE_LIMIT),
    ];
    for make in [chain, left_comb, right_comb, wide_calls, deep_calls] {
        programs.push(make(random, NODE_LIMIT - 1));
    }
    for blocks in 1..=16 {
        programs.push(program_of_records(random, 63 * blocks));
        programs.push(program_of_records(random, 63 * blocks + 1));
    }
    programs
}
