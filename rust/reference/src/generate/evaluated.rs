//! Generators of programs that pass both passes and of trees to evaluate them
//! on. Of the programs of `ordered` most go on for ever, because they call
//! themselves on the tree that they were given; most of these end.

use crate::program::{kind, Expr, Function, Program};
use crate::random::Random;
use crate::tree::{Token, Tree};

use super::ordered::{any_program as any_ordered, by_bodies, At, Maker};
use super::{label, left_caterpillar, mixed_caterpillar, right_caterpillar, tree};

#[cfg(test)]
mod tests;

/// Numbers that are often equal or sum to 0, and whose sums hardly ever leave
/// the range.
pub const SMALL_NUMBERS: [i32; 6] = [0, 0, 0, 1, -1, 2];

/// A program that ends on every tree, or goes on for ever on some or all.
pub fn any_program(random: &mut Random) -> Program {
    let program = match random.below(8) {
        0..=3 => descending(random),
        4..=6 => partly_descending(random),
        _ => any_ordered(random),
    };
    with_small_numbers(random, &program)
}

/// A program that ends on every tree: each body begins with a Case on its
/// tree, so that every Call is on a smaller one.
pub fn descending(random: &mut Random) -> Program {
    let (functions, nodes) = size(random);
    by_bodies(random, functions, nodes, descending_body)
}

/// A program whose bodies mostly begin with a Case on their tree. Others may
/// hand the tree on, and some of these go on for ever.
pub fn partly_descending(random: &mut Random) -> Program {
    let (functions, nodes) = size(random);
    by_bodies(random, functions, nodes, |maker, at| {
        if maker.random.below(4) == 0 {
            maker.expression(at, &[0])
        } else {
            descending_body(maker, at)
        }
    })
}

/// Functions and nodes: some, rarely many.
fn size(random: &mut Random) -> (usize, usize) {
    let functions = match random.below(8) {
        0 => 1,
        1..=6 => 2 + random.below(6),
        _ => 32,
    };
    let each = random.pick(&[6, 10, 20, 40]);
    (functions, (functions * (4 + random.below(each))).min(700))
}

/// A Case on tree 0, or one after a Let.
fn descending_body(maker: &mut Maker, at: At) -> Expr {
    let at = at.size(at.size.max(6));
    if maker.random.below(6) > 0 {
        return maker.case(at, &[0]);
    }
    let number = maker.expression(at.number(0).behind(1).size(3), &[]);
    let body = maker.case(at.one_more_number(), &[0]);
    Expr::let_in(number, body)
}

/// The program with small numbers in most of its Consts.
pub fn with_small_numbers(random: &mut Random, program: &Program) -> Program {
    let functions = program.functions.iter().map(|function| {
        let mut records = function.body.prefix_records();
        for (record, _) in &mut records {
            if record.kind == kind::CONST && random.below(8) > 0 {
                record.i = random.pick(&SMALL_NUMBERS) as u32;
            }
        }
        Function {
            body: Expr::from_prefix(&records).expect("the same parts"),
            ..function.clone()
        }
    });
    Program::new(functions.collect())
}

/// A tree of a few tips, at most 12, with small numbers in most of them.
pub fn small_tree(random: &mut Random) -> Tree {
    let tips = 1 + random.below(12);
    let tree = tree(random, tips);
    with_small_labels(random, &tree)
}

/// The tree with small numbers in most of its leaves.
fn with_small_labels(random: &mut Random, tree: &Tree) -> Tree {
    let tokens = tree.prefix().map(|token| match token {
        Token::Leaf(_) if random.below(8) > 0 => Token::Leaf(random.pick(&SMALL_NUMBERS)),
        Token::Leaf(_) => Token::Leaf(label(random)),
        Token::Node => Token::Node,
    });
    let tokens: Vec<Token> = tokens.collect();
    Tree::from_prefix(&tokens).expect("the same tree but for its labels")
}

/// A tree of that depth that goes to the left, to the right, or to either.
pub fn deep_tree(random: &mut Random, depth: usize) -> Tree {
    let make = random.pick(&[left_caterpillar, right_caterpillar, mixed_caterpillar]);
    let tree = make(random, depth);
    with_small_labels(random, &tree)
}
