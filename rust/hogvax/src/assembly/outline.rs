//! How the node records of a program are parts of one another.

use super::records::{Kind, Record, CALL, CASE, KINDS, LET, RECORD_BYTES};

/// A program's records, sorted into functions.
pub struct Outline {
    pub functions: Vec<FunctionOutline>,
}

/// A function, and its node records in order.
pub struct FunctionOutline {
    pub record: Record,
    /// The number of its first node's record, whether it has one or not.
    pub first: usize,
    pub nodes: Vec<Node>,
    /// The nodes that lack parts when the records end, innermost last: the
    /// number of the record, and how many parts it has.
    pub lacking: Vec<(usize, usize)>,
}

/// A node record and where it stands.
pub struct Node {
    /// Its number, counted from the header, record 0.
    pub number: usize,
    pub record: Record,
    /// The record that it is a part of, and which part, from 0. `None` for a
    /// function's whole expression, and for records left over after it.
    pub whole: Option<(usize, usize)>,
    /// How many records it is inside of.
    pub depth: usize,
    /// How many number names and tree names are bound where it stands.
    pub numbers: usize,
    pub trees: usize,
}

/// A node that waits for parts.
struct Open {
    number: usize,
    record: Record,
    needs: usize,
    has: usize,
    numbers: usize,
    trees: usize,
}

impl Outline {
    /// The outline of these records, 8 bytes each: the header, as many
    /// functions as it says and their nodes, as far as there are any. It need
    /// not be a program.
    pub fn new(records: &[u8]) -> Outline {
        let mut records = records
            .chunks_exact(RECORD_BYTES)
            .filter_map(|bytes| bytes.try_into().ok().map(Record::from_bytes));
        let count = records.next().map_or(0, |header| usize::from(header.a));
        let functions: Vec<Record> = records.by_ref().take(count).collect();
        let nodes: Vec<Record> = records.collect();
        let mut first = 1 + functions.len();
        let mut rest = &nodes[..];
        let mut outlines = Vec::new();
        for &function in &functions {
            let (own, others) = rest.split_at(rest.len().min(usize::from(function.b)));
            outlines.push(outline(function, first, own, &functions));
            first += own.len();
            rest = others;
        }
        Outline {
            functions: outlines,
        }
    }

    /// The node with this record number, if there is one.
    pub fn node(&self, number: usize) -> Option<&Node> {
        let mut nodes = self.functions.iter().flat_map(|function| &function.nodes);
        nodes.find(|node| node.number == number)
    }
}

fn outline(function: Record, first: usize, own: &[Record], all: &[Record]) -> FunctionOutline {
    let mut open: Vec<Open> = Vec::new();
    let mut nodes = Vec::new();
    for (number, &record) in (first..).zip(own) {
        let node = node(number, record, open.last(), open.len(), function);
        let needs = parts(record, all);
        let opened = Open {
            number,
            record,
            needs,
            has: 0,
            numbers: node.numbers,
            trees: node.trees,
        };
        if let Some(whole) = open.last_mut() {
            whole.has += 1;
        }
        nodes.push(node);
        open.push(opened);
        while open.last().is_some_and(|last| last.has == last.needs) {
            open.pop();
        }
    }
    FunctionOutline {
        record: function,
        first,
        nodes,
        lacking: open.iter().map(|node| (node.number, node.has)).collect(),
    }
}

/// The node of a record which is the next part of `whole`, or a function's
/// whole expression.
fn node(
    number: usize,
    record: Record,
    whole: Option<&Open>,
    depth: usize,
    function: Record,
) -> Node {
    let (numbers, trees) = match whole {
        None => (usize::from(function.a), 1),
        Some(whole) => whole.bound(),
    };
    Node {
        number,
        record,
        whole: whole.map(|whole| (whole.number, whole.has)),
        depth,
        numbers,
        trees,
    }
}

impl Open {
    /// The names bound in its next part: a Let's body and a Case's leaf part
    /// have one number more, a Case's node part two trees.
    fn bound(&self) -> (usize, usize) {
        match (self.record.kind, self.has) {
            (LET, 1) | (CASE, 0) => (self.numbers + 1, self.trees),
            (CASE, 1) => (self.numbers, self.trees + 2),
            _ => (self.numbers, self.trees),
        }
    }
}

/// How many parts a record has: a Call as many as its function has number
/// parameters. A record of no kind has none, nor has a Call of no function.
fn parts(record: Record, functions: &[Record]) -> usize {
    if record.kind == CALL {
        let called = functions.get(usize::from(record.b));
        return called.map_or(0, |called| usize::from(called.a));
    }
    let kind: Option<&Kind> = KINDS.get(usize::from(record.kind));
    kind.map_or(0, |kind| kind.parts.len())
}
