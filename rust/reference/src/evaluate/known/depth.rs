//! Trees and expressions so deep that 1,024 calls are open, or one more would
//! be.

use crate::order::known::text::program;
use crate::program::Program;
use crate::tree::{Token, Tree};

use super::{ended, Known, OPEN};
use crate::evaluate::{Evaluation, Value};

const GROW: &str = "tree: Case 0, Leaf, Add, Var 0, Const 1, Node, Call 0 on 1, Call 0 on 2";

const TWO_LEVELS: &str =
    "number: Case 0, Var 0, Add, Call 0 on 1, Case 2, Var 0, Add, Call 0 on 3, Call 0 on 4";

pub fn cases() -> Vec<Known> {
    let grow = || program(GROW);
    let two_levels = || program(TWO_LEVELS);
    let (least, most) = (1_023, 1_024);
    let (to_left, to_right) = (too_many(3_072), too_many(9_210));
    let more = too_many(11_256);
    vec![
        known("1,023 to the left", grow(), left(least), grown(left)),
        known("1,023 to the right", grow(), right(least), grown(right)),
        known("1,024 to the left", grow(), left(most), to_left),
        known("1,024 to the right", grow(), right(most), to_right),
        known("2,046, two a call", two_levels(), right(2_046), of_two()),
        known("2,048, two a call", two_levels(), right(2_048), more),
        known("511 Adds a call", adds(), left(0), too_many(524_288)),
    ]
}

fn known(name: &'static str, program: Program, tree: Tree, answer: Evaluation) -> Known {
    Known {
        name,
        program,
        tree,
        most_open: OPEN,
        answer,
    }
}

fn too_many(begun: u64) -> Evaluation {
    Evaluation::TooManyOpen { begun }
}

/// The caterpillar of that depth whose right parts are leaves, with labels 1.
fn left(depth: usize) -> Tree {
    let leaves = vec![Token::Leaf(1); depth + 1];
    let tokens = [vec![Token::Node; depth], leaves].concat();
    Tree::from_prefix(&tokens).expect("a tree")
}

/// The caterpillar of that depth whose left parts are leaves, with labels 1.
fn right(depth: usize) -> Tree {
    let mut tokens = [Token::Node, Token::Leaf(1)].repeat(depth);
    tokens.push(Token::Leaf(1));
    Tree::from_prefix(&tokens).expect("a tree")
}

/// Grow begins 5 expressions with 9 units for a leaf, 4 with 6 for a node.
fn grown(make: fn(usize) -> Tree) -> Evaluation {
    let tree = make(1_023);
    let tokens = tree.prefix().map(|token| match token {
        Token::Leaf(label) => Token::Leaf(label + 1),
        Token::Node => Token::Node,
    });
    let tokens: Vec<Token> = tokens.collect();
    let tree = Tree::from_prefix(&tokens).expect("a tree");
    let (leaves, nodes) = (1_024, 1_023);
    let units = 9 * leaves + 6 * nodes;
    ended(Value::Tree(tree), 5 * leaves + 4 * nodes, 1_024, units)
}

/// 1,023 calls take two nodes each, the last takes a leaf.
fn of_two() -> Evaluation {
    let number = Value::Number(2_047);
    ended(number, 11 * 1_023 + 2, 1_024, 20 * 1_023 + 5)
}

/// 511 Adds, each the left part of the one before, around Call 0 on 0.
fn adds() -> Program {
    let text = [
        "number: ",
        &"Add, ".repeat(511),
        "Call 0 on 0",
        &", Const 1".repeat(511),
    ];
    program(&text.concat())
}
