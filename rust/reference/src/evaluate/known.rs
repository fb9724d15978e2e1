//! Evaluations with their results by hand: document 01's worked programs, its
//! traps, sums at the ends of the range, and programs at the limits.

use crate::machine::known::programs::parsed;
use crate::machine::known::text::{bytes, field};
use crate::order::known::text::program;
use crate::program::Program;
use crate::translate::known::{function_31, longest_code, most_nodes};
use crate::tree::{read_tree, Tree};

use super::{Ended, Evaluation, Value};

mod depth;
mod tables;

/// A program that passes pass one, a tree, and the evaluation.
#[derive(Clone, Debug)]
pub struct Known {
    /// What it shows.
    pub name: &'static str,
    pub program: Program,
    pub tree: Tree,
    pub most_open: usize,
    pub answer: Evaluation,
}

/// The calls that a stream run can have open.
const OPEN: usize = 1_024;

/// All of them; the first is document 01's Grow on T.
pub fn all() -> Vec<Known> {
    let mut all = in_order();
    all.extend(table(tables::NOT_IN_ORDER));
    all
}

/// Those whose programs pass both passes.
pub fn in_order() -> Vec<Known> {
    let tables = [
        tables::WORKED,
        tables::NAMES,
        tables::BRANCHES,
        tables::CALLS,
        tables::ENDLESS,
        tables::SUMS,
    ];
    let mut all: Vec<Known> = tables.into_iter().flat_map(table).collect();
    all.extend(at_the_limits());
    all.extend(depth::cases());
    all
}

/// A table with an evaluation in each line: what it shows, the functions, the
/// tokens of the tree in hexadecimal, and the result: `ended with NUMBER` or
/// `ended` and `gave` the tokens, expressions `begun`, the most calls `open`,
/// and `units`; or `too many` and the expressions `begun`; or `out of range at`
/// a record, expressions `begun`, and `units`.
fn table(text: &'static str) -> Vec<Known> {
    let lines = text.lines().filter(|line| !line.is_empty());
    lines.map(known).collect()
}

fn known(line: &'static str) -> Known {
    let columns: Vec<&str> = line.split('|').map(str::trim).collect();
    let [name, functions, tokens, result] = columns[..] else {
        panic!("not four columns: {line}");
    };
    Known {
        name,
        program: program(functions),
        tree: tree(&bytes(tokens)),
        most_open: OPEN,
        answer: answer(result),
    }
}

fn tree(tokens: &[u8]) -> Tree {
    let (tree, end) = read_tree(tokens).expect("a tree");
    assert_eq!(end, tokens.len(), "nothing but a tree");
    tree
}

fn answer(text: &str) -> Evaluation {
    let count = |word| field(text, word).map(parsed).expect("a count");
    if text.starts_with("too many") {
        return Evaluation::TooManyOpen {
            begun: count("begun"),
        };
    }
    let first = text.split(", ").next().unwrap_or("");
    if let Some(record) = first.strip_prefix("out of range at ") {
        return Evaluation::SumOutOfRange {
            record: parsed(record),
            begun: count("begun"),
            units: count("units"),
        };
    }
    let value = match first.strip_prefix("ended with ") {
        Some(number) => Value::Number(parsed(number)),
        None => Value::Tree(tree(&bytes(field(text, "gave").expect("a tree")))),
    };
    ended(
        value,
        count("begun"),
        count("open") as usize,
        count("units"),
    )
}

fn ended(value: Value, begun: u64, open: usize, units: u64) -> Evaluation {
    Evaluation::Ended(Ended {
        value,
        begun,
        open,
        units,
    })
}

/// The translator's programs at the limits, on a leaf 7, on the leaves 5 and
/// 7.
fn at_the_limits() -> Vec<Known> {
    let leaf = || Tree::leaf(7);
    let both = || Tree::node(Tree::leaf(5), leaf());
    let number = |number, begun, open, units| ended(Value::Number(number), begun, open, units);
    let known = |program: Program, tree, name, answer| Known {
        name,
        program,
        tree,
        most_open: OPEN,
        answer,
    };
    let (sum, most, longest) = (function_31().1, most_nodes().1, longest_code().1);
    vec![
        known(sum, both(), "function 31 on T", number(12, 9, 3, 18)),
        known(
            most.clone(),
            leaf(),
            "1,024 nodes on a leaf",
            number(18, 1_018, 32, 1_052),
        ),
        known(
            most,
            both(),
            "1,024 nodes on T",
            number(34, 1_050, 33, 1_089),
        ),
        known(
            longest.clone(),
            leaf(),
            "the longest code on a leaf",
            number(1, 2, 1, 5),
        ),
        known(
            longest,
            both(),
            "the longest code on T",
            number(1, 6, 2, 13),
        ),
    ]
}
