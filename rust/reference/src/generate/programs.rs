//! Generators of programs whose records pass the rows header to prefix form.
//! Types, names and the order of trees are left to chance.

use crate::program::{kind, Expr, Function, Program, Record};
use crate::program::{FUNCTION_LIMIT, NODE_LIMIT, PARAMETER_LIMIT};
use crate::random::Random;

use super::label;

/// A name: small, extreme, or any.
pub fn name(random: &mut Random) -> u8 {
    match random.below(4) {
        0 => random.pick(&[127, 128, 254, 255]),
        1 => random.byte(),
        _ => random.pick(&[0, 1, 2, 3]),
    }
}

/// Functions and nodes of a program: few, some, any number or the most.
pub fn size(random: &mut Random) -> (usize, usize) {
    let functions = match random.below(8) {
        0..=2 => 1,
        3 | 4 => 1 + random.below(4),
        5 | 6 => 1 + random.below(FUNCTION_LIMIT),
        _ => FUNCTION_LIMIT,
    };
    let nodes = match random.below(8) {
        0..=3 => functions + random.below(16),
        4 | 5 => functions + random.below(200),
        6 => functions + random.below(NODE_LIMIT - functions + 1),
        _ => NODE_LIMIT,
    };
    (functions, nodes)
}

/// A program of any size.
pub fn any_program(random: &mut Random) -> Program {
    let (functions, nodes) = size(random);
    program(random, functions, nodes)
}

/// A program with so many functions, at least 1, and so many nodes, at least
/// as many. More than the limits may be asked for.
pub fn program(random: &mut Random, functions: usize, nodes: usize) -> Program {
    let parameters = parameters(random, functions);
    let counts = counts(random, nodes, functions);
    of_bodies(random, &parameters, |random, k| {
        expression(random, counts[k], &parameters)
    })
}

/// A program with so many records in all, from 3 to 1,057.
pub fn program_of_records(random: &mut Random, records: usize) -> Program {
    let least = (records - 1).saturating_sub(NODE_LIMIT).max(1);
    let most = FUNCTION_LIMIT.min((records - 1) / 2);
    let functions = least + random.below(most - least + 1);
    program(random, functions, records - 1 - functions)
}

/// So many functions' number parameters: "0 to 4; function 0 has none".
pub fn parameters(random: &mut Random, functions: usize) -> Vec<u8> {
    let mut parameters: Vec<u8> = (0..functions)
        .map(|_| random.below(PARAMETER_LIMIT + 1) as u8)
        .collect();
    parameters[0] = 0;
    parameters
}

/// So many counts of at least 1 that sum to `total`: evenly spread, or most
/// of it in few of them.
pub fn counts(random: &mut Random, total: usize, parts: usize) -> Vec<usize> {
    let mut counts = vec![1; parts];
    let mut rest = total.checked_sub(parts).expect("at least 1 for each");
    let evenly = random.below(2) == 0;
    while rest > 0 {
        let share = if evenly { 1 } else { 1 + random.below(rest) };
        counts[random.below(parts)] += share;
        rest -= share;
    }
    counts
}

/// An expression of so many records, at least 1, where the functions have
/// these number parameters, function 0 none.
pub fn expression(random: &mut Random, nodes: usize, parameters: &[u8]) -> Expr {
    by_choice(nodes, |nodes| {
        let counts_of_parts: Vec<usize> = if nodes == 1 {
            vec![0]
        } else {
            (1..nodes.min(PARAMETER_LIMIT + 1))
                .filter(|&parts| !kinds(parts, parameters).is_empty())
                .collect()
        };
        let parts = random.pick(&counts_of_parts);
        let record = record(random, parts, parameters);
        (record, counts(random, nodes - 1, parts))
    })
}

/// The expression of so many records that `choose` makes: for an expression
/// of so many it gives the first record and the size of each part.
pub(super) fn by_choice(
    nodes: usize,
    mut choose: impl FnMut(usize) -> (Record, Vec<usize>),
) -> Expr {
    let mut records = Vec::with_capacity(nodes);
    let mut pending = vec![nodes];
    while let Some(nodes) = pending.pop() {
        let (record, parts) = choose(nodes);
        records.push((record, parts.len()));
        pending.extend(parts.iter().rev());
    }
    Expr::from_prefix(&records).expect("every part is made")
}

/// The kinds with so many parts, Call if there is a function to call.
fn kinds(parts: usize, parameters: &[u8]) -> Vec<u8> {
    let mut kinds = match parts {
        0 => vec![kind::CONST, kind::VAR],
        1 => vec![kind::LEAF],
        2 => vec![kind::ADD, kind::LET, kind::NODE, kind::CASE],
        3 => vec![kind::IF_ZERO],
        _ => vec![],
    };
    if parameters.iter().any(|&count| usize::from(count) == parts) {
        kinds.push(kind::CALL);
    }
    kinds
}

/// A record with so many parts, of any such kind, with any operands.
pub fn record(random: &mut Random, parts: usize, parameters: &[u8]) -> Record {
    let mut record = Record {
        kind: random.pick(&kinds(parts, parameters)),
        ..Record::default()
    };
    match record.kind {
        kind::CONST => record.i = label(random) as u32,
        kind::VAR | kind::CASE => record.a = name(random),
        kind::CALL => {
            let called: Vec<usize> = (0..parameters.len())
                .filter(|&b| usize::from(parameters[b]) == parts)
                .collect();
            record.a = name(random);
            record.b = random.pick(&called) as u16;
        }
        _ => {}
    }
    record
}

/// The program of functions with these number parameters, the results at
/// random.
pub(super) fn of_bodies(
    random: &mut Random,
    parameters: &[u8],
    mut body: impl FnMut(&mut Random, usize) -> Expr,
) -> Program {
    let functions = parameters
        .iter()
        .enumerate()
        .map(|(k, &parameters)| Function {
            tree_valued: random.below(2) == 0,
            parameters,
            body: body(random, k),
        });
    Program::new(functions.collect())
}

/// Records that pass the rows header to nodes, with nodes drawn at random: a
/// function of few of them may be in prefix form.
pub fn loose_records(random: &mut Random, functions: usize, nodes: usize) -> Vec<u8> {
    let parameters = parameters(random, functions);
    let mut records = vec![Record {
        kind: 1,
        a: functions as u8,
        b: nodes as u16,
        i: 0,
    }];
    let counts = counts(random, nodes, functions);
    for (&a, &count) in parameters.iter().zip(&counts) {
        records.push(Record {
            kind: random.below(2) as u8,
            a,
            b: count as u16,
            i: 0,
        });
    }
    for _ in 0..nodes {
        let parts = random.pick(&[0, 0, 0, 0, 0, 0, 1, 1, 2, 2, 3, 4]);
        let possible = !kinds(parts, &parameters).is_empty();
        let parts = if possible { parts } else { 0 };
        records.push(record(random, parts, &parameters));
    }
    Record::bytes(&records)
}
