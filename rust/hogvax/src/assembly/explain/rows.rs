//! The rows before the two passes: header, functions, nodes and prefix form.

use super::super::outline::{FunctionOutline, Outline};
use super::super::records::{Operands, Record, CALL, KINDS, RECORD_BYTES};
use super::super::wording::{counted, grouped, joined, names, part_name, quoted};
use super::{Detail, Found};

const MOST_FUNCTIONS: usize = 32;
const MOST_NODES: usize = 1_024;
const MOST_PARAMETERS: usize = 4;

/// Refusal 4. A text has a right header but for its numbers of functions and
/// nodes.
pub fn header(records: &[u8]) -> Result<(), Found> {
    let Some(header) = first_record(records) else {
        return Err(Found::general(4, 0));
    };
    let functions = usize::from(header.a);
    let nodes = usize::from(header.b);
    let length = RECORD_BYTES * (1 + functions + nodes);
    if header.kind != 1 || header.i != 0 || records.len() != length {
        return Err(Found::general(4, 0));
    }
    number_of_functions(functions)?;
    number_of_nodes(functions, nodes)
}

fn first_record(records: &[u8]) -> Option<Record> {
    records.first_chunk().copied().map(Record::from_bytes)
}

fn number_of_functions(functions: usize) -> Result<(), Found> {
    if functions == 0 {
        let message = format!("there is no function; a program has 1 to {MOST_FUNCTIONS}");
        return Err(Found::new(4, 0, message));
    }
    if functions > MOST_FUNCTIONS {
        let message =
            format!("there are {functions} functions; a program has at most {MOST_FUNCTIONS}");
        let first = format!("function {MOST_FUNCTIONS} is the first too many");
        let detail = Detail::of(1 + MOST_FUNCTIONS, first);
        return Err(Found::new(4, 0, message).with(detail));
    }
    Ok(())
}

fn number_of_nodes(functions: usize, nodes: usize) -> Result<(), Found> {
    let most = grouped(MOST_NODES);
    if nodes == 0 {
        let message = format!("no function has a record; a program has 1 to {most}");
        return Err(Found::new(4, 0, message));
    }
    if nodes > MOST_NODES {
        let nodes = grouped(nodes);
        let message = format!("the functions have {nodes} records; a program has at most {most}");
        let record = 1 + functions + MOST_NODES;
        let detail = Detail::of(record, format!("record {record} is the first too many"));
        return Err(Found::new(4, 0, message).with(detail));
    }
    Ok(())
}

/// Refusal 5. In a text, results and node counts are right, save that a
/// function may have no node.
pub fn functions(records: &[u8], program: &Outline) -> Result<(), Found> {
    for (k, outline) in program.functions.iter().enumerate() {
        function(k, outline.record)?;
    }
    let counts = program.functions.iter();
    let sum: usize = counts.map(|outline| usize::from(outline.record.b)).sum();
    let nodes = first_record(records).map_or(0, |header| usize::from(header.b));
    if sum == nodes {
        Ok(())
    } else {
        Err(Found::general(5, program.functions.len()))
    }
}

fn function(k: usize, record: Record) -> Result<(), Found> {
    if record.kind > 1 || record.i != 0 {
        return Err(Found::general(5, 1 + k));
    }
    let count = usize::from(record.a);
    let most = if k == 0 { 0 } else { MOST_PARAMETERS };
    if count > most {
        let most = if k == 0 {
            "it may have none".to_owned()
        } else {
            format!("{most} is the most")
        };
        let count = counted(count, "number parameter");
        let message = format!("function {k} has {count}, and {most}");
        return Err(Found::new(5, 1 + k, message));
    }
    if record.b == 0 {
        let message = format!("function {k} has no records, and has to be one expression");
        return Err(Found::new(5, 1 + k, message));
    }
    Ok(())
}

/// Refusal 6. In a text only a Call's function may be wrong.
pub fn nodes(program: &Outline) -> Result<(), Found> {
    let count = program.functions.len();
    for node in program.functions.iter().flat_map(|outline| &outline.nodes) {
        let Record { kind, a, b, i } = node.record;
        let zero = match KINDS.get(usize::from(kind)).map(|kind| kind.operands) {
            None => false,
            Some(Operands::Nothing) => a == 0 && b == 0 && i == 0,
            Some(Operands::Number) => a == 0 && b == 0,
            Some(Operands::NumberName | Operands::TreeName) => b == 0 && i == 0,
            Some(Operands::FunctionOnTree) => i == 0,
        };
        if !zero {
            return Err(Found::general(6, node.number));
        }
        if kind == CALL && usize::from(b) >= count {
            let message = format!("there is no function {b}; {}", functions_there(count));
            return Err(Found::new(6, node.number, message));
        }
    }
    Ok(())
}

fn functions_there(count: usize) -> String {
    match count {
        1 => "function 0 is the only one".to_owned(),
        _ => format!("there are {}", names("function", 0, count)),
    }
}

/// Refusal 7, at the first node of the function.
pub fn prefix_form(program: &Outline) -> Result<(), Found> {
    for (k, outline) in program.functions.iter().enumerate() {
        left_over(k, outline)?;
        if !outline.lacking.is_empty() {
            let message = format!("the records of function {k} end before its expression is whole");
            let lacking = lacking(program, outline);
            return Err(Found::new(7, outline.first, message).with_all(lacking));
        }
    }
    Ok(())
}

/// An expression that is whole before the records end.
fn left_over(k: usize, outline: &FunctionOutline) -> Result<(), Found> {
    let mut pairs = outline.nodes.iter().zip(outline.nodes.iter().skip(1));
    let Some((last, next)) = pairs.find(|(_, next)| next.whole.is_none()) else {
        return Ok(());
    };
    let message = format!("the records of function {k} are more than one expression");
    let (end, start) = (quoted(last.record), quoted(next.record));
    let end = format!("the expression is whole at record {}, {end}", last.number);
    let start = format!("record {}, {start}, begins another", next.number);
    let found = Found::new(7, outline.first, message);
    let found = found.with(Detail::of(last.number, end));
    Err(found.with(Detail::of(next.number, start)))
}

/// What each node lacks when the records end, the innermost first. One whose
/// last part is begun lacks nothing itself.
fn lacking(program: &Outline, outline: &FunctionOutline) -> Vec<Detail> {
    let nodes = outline.lacking.iter().rev();
    let lacks = nodes.filter_map(|&(number, has)| {
        let record = program.node(number)?.record;
        let lacks = match record.kind {
            CALL => lacks_arguments(program, record, has)?,
            _ => lacks_parts(record, has)?,
        };
        let name = quoted(record);
        Some(Detail::of(number, format!("{name} {lacks}")))
    });
    lacks.collect()
}

fn lacks_arguments(program: &Outline, call: Record, has: usize) -> Option<String> {
    let called = program.functions.get(usize::from(call.b))?;
    match usize::from(called.record.a) {
        needs if needs == has => None,
        1 => Some("lacks its argument".to_owned()),
        needs if has == 0 => Some(format!("lacks its {needs} arguments")),
        needs => Some(format!("has {has} of its {needs} arguments")),
    }
}

fn lacks_parts(record: Record, has: usize) -> Option<String> {
    let parts = KINDS.get(usize::from(record.kind))?.parts.len();
    let lacking: Vec<String> = (has..parts)
        .map(|part| format!("its {}", part_name(record, part)))
        .collect();
    (!lacking.is_empty()).then(|| format!("lacks {}", joined(&lacking)))
}
