//! The rows header, functions, nodes and prefix form. "A check row is
//! finished for the whole file before the next begins".

use crate::tree::{refuse, Refusal};

use super::record::{kind, Record, RECORD_BYTES};
use super::{Expr, Function, Program};
use super::{BAD_FUNCTION, BAD_HEADER, BAD_NODE, NOT_PREFIX_FORM};
use super::{FUNCTION_LIMIT, NODE_LIMIT, PARAMETER_LIMIT};

/// The program with these records, or the first refusal.
pub(super) fn read(records: &[u8]) -> Result<Program, Refusal> {
    let header = read_header(records)?;
    let records = Record::list(records);
    let (functions, nodes) = records[1..].split_at(usize::from(header.a));
    check_functions(functions, usize::from(header.b))?;
    check_nodes(nodes, functions.len())?;
    let bodies = read_bodies(functions, nodes)?;
    let functions = functions.iter().zip(bodies).map(|(record, body)| Function {
        tree_valued: record.kind == 1,
        parameters: record.a,
        body,
    });
    Ok(Program {
        edition: header.kind,
        functions: functions.collect(),
    })
}

/// "Record 0 is the header: byte 0 edition 1, byte 1 functions F (1 to 32),
/// bytes 2–3 nodes N (1 to 1,024), rest zero. There are 1 + F + N records.";
/// "a byte length that isn't 8 times (1 + F + N) is 4".
fn read_header(records: &[u8]) -> Result<Record, Refusal> {
    let Some(&header) = Record::list(records).first() else {
        return refuse(BAD_HEADER, 0);
    };
    let functions = usize::from(header.a);
    let nodes = usize::from(header.b);
    let right = header.kind == 1
        && (1..=FUNCTION_LIMIT).contains(&functions)
        && (1..=NODE_LIMIT).contains(&nodes)
        && header.i == 0
        && records.len() == RECORD_BYTES * (1 + functions + nodes);
    if right {
        Ok(header)
    } else {
        refuse(BAD_HEADER, 0)
    }
}

/// "F function records: byte 0 result (0 number, 1 tree), byte 1 number
/// parameters (0 to 4; function 0 has none), bytes 2–3 its node count (at
/// least 1; the counts sum to N), rest zero."; "5 a field; a wrong sum of
/// counts at the last one".
fn check_functions(functions: &[Record], nodes: usize) -> Result<(), Refusal> {
    for (k, function) in functions.iter().enumerate() {
        let limit = if k == 0 { 0 } else { PARAMETER_LIMIT };
        let right = function.kind <= 1
            && usize::from(function.a) <= limit
            && function.b >= 1
            && function.i == 0;
        if !right {
            return refuse(BAD_FUNCTION, 1 + k);
        }
    }
    let sum: usize = functions
        .iter()
        .map(|function| usize::from(function.b))
        .sum();
    if sum != nodes {
        return refuse(BAD_FUNCTION, functions.len());
    }
    Ok(())
}

/// "6 kind above 8, unused field not zero, b not below F".
fn check_nodes(nodes: &[Record], functions: usize) -> Result<(), Refusal> {
    for (k, &Record { kind, a, b, i }) in nodes.iter().enumerate() {
        let right = match kind {
            kind::CONST => a == 0 && b == 0,
            kind::VAR | kind::CASE => b == 0 && i == 0,
            kind::ADD | kind::IF_ZERO | kind::LET | kind::LEAF | kind::NODE => {
                a == 0 && b == 0 && i == 0
            }
            kind::CALL => usize::from(b) < functions && i == 0,
            _ => false,
        };
        if !right {
            return refuse(BAD_NODE, 1 + functions + k);
        }
    }
    Ok(())
}

/// "7 a function's records aren't exactly one expression", at "its first
/// node's record".
fn read_bodies(functions: &[Record], nodes: &[Record]) -> Result<Vec<Expr>, Refusal> {
    let parameters: Vec<u8> = functions.iter().map(|function| function.a).collect();
    let mut bodies = Vec::new();
    let mut first = 0;
    for function in functions {
        let end = first + usize::from(function.b);
        let records: Option<Vec<(Record, usize)>> = nodes[first..end]
            .iter()
            .map(|&record| Some((record, part_count(record, &parameters)?)))
            .collect();
        match records.and_then(|records| Expr::from_prefix(&records)) {
            Some(body) => bodies.push(body),
            None => return refuse(NOT_PREFIX_FORM, 1 + functions.len() + first),
        }
        first = end;
    }
    Ok(bodies)
}

/// The number of parts of a record, the functions having so many number
/// parameters; none where there is no such kind or function.
pub fn part_count(record: Record, parameters: &[u8]) -> Option<usize> {
    match record.kind {
        kind::CONST | kind::VAR => Some(0),
        kind::LEAF => Some(1),
        kind::ADD | kind::LET | kind::NODE | kind::CASE => Some(2),
        kind::IF_ZERO => Some(3),
        kind::CALL => parameters
            .get(usize::from(record.b))
            .copied()
            .map(usize::from),
        _ => None,
    }
}
