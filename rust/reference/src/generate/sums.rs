//! Generators of sums at the ends of the range, just inside and just outside.

use crate::order::known::text::program;
use crate::program::{Expr, Program};
use crate::random::Random;
use crate::tree::{Token, Tree};

use super::{label, left_caterpillar, mixed_caterpillar, right_caterpillar, tree};

#[cfg(test)]
mod tests;

const LEAST: i64 = i32::MIN as i64;
const GREATEST: i64 = i32::MAX as i64;

/// Half of the time just the least or the greatest number.
pub fn total_in_range(random: &mut Random) -> i64 {
    let any = i64::from(label(random));
    random.pick(&[LEAST, GREATEST, any, any])
}

/// A total of two numbers that is out of range, half of the time by 1.
pub fn total_out_of_range(random: &mut Random) -> i64 {
    let more = 1 + random.below(1 << 31) as i64;
    let above = GREATEST + random.pick(&[1, 1, 2, more.min(GREATEST)]);
    let below = LEAST - random.pick(&[1, 1, 2, more]);
    random.pick(&[above, below])
}

/// Two numbers with that total; one of them is often at an end of the range.
pub fn split(random: &mut Random, total: i64) -> (i32, i32) {
    let (least, most) = (LEAST.max(total - GREATEST), GREATEST.min(total - LEAST));
    let between = least + random.below((most - least + 1) as usize) as i64;
    let any = i64::from(label(random)).clamp(least, most);
    let left = random.pick(&[least, most, between, between, any, any]);
    (left as i32, (total - left) as i32)
}

/// Two numbers whose sum fits.
pub fn fitting(random: &mut Random) -> (i32, i32) {
    let total = total_in_range(random);
    split(random, total)
}

/// Two numbers whose sum is out of range.
pub fn leaving(random: &mut Random) -> (i32, i32) {
    let total = total_out_of_range(random);
    split(random, total)
}

/// The tree with labels that sum up to the total, which is the total of two
/// numbers, or of one if the tree is a leaf. The labels of every tree inside
/// have a sum that fits.
pub fn with_total(random: &mut Random, tree: &Tree, total: i64) -> Tree {
    let mut pending = vec![total];
    let tokens = tree.prefix().map(|token| {
        let total = pending.pop().expect("a tree");
        if token != Token::Node {
            return Token::Leaf(total as i32);
        }
        let (left, right) = split(random, total);
        pending.extend([i64::from(right), i64::from(left)]);
        Token::Node
    });
    let tokens: Vec<Token> = tokens.collect();
    Tree::from_prefix(&tokens).expect("the same tree but for its labels")
}

/// The tree with small labels: the labels of a thousand leaves have a sum that
/// fits.
pub fn with_moderate_labels(random: &mut Random, tree: &Tree) -> Tree {
    let mut moderate = || random.below(2_000_001) as i32 - 1_000_000;
    let tokens = tree.prefix().map(|token| match token {
        Token::Leaf(_) => Token::Leaf(moderate()),
        Token::Node => Token::Node,
    });
    let tokens: Vec<Token> = tokens.collect();
    Tree::from_prefix(&tokens).expect("the same tree but for its labels")
}

/// Programs in order that add up labels, as numbers, as labels of the result,
/// and in arguments handed on.
const SUMMING: [&str; 6] = [
    "number: Case 0, Var 0, Add, Call 0 on 1, Call 0 on 2",
    "tree: Leaf, Call 1 on 0 / number: Case 0, Var 0, Add, Call 1 on 1, Call 1 on 2",
    "tree: Case 0, Leaf, Var 0, Node, Leaf, Const 7, Leaf, Add, Call 1 on 1, Call 1 on 2 \
     / number: Case 0, Var 0, Add, Call 1 on 1, Call 1 on 2",
    "number: Call 1 on 0, Const 0 \
     / number 1: Case 0, Add, Var 0, Var 1, Call 1 on 2, Call 1 on 1, Var 0",
    "tree: Case 0, Leaf, Add, Var 0, Const 1, Node, Call 0 on 1, Call 0 on 2",
    "tree: Case 0, Leaf, Add, Const -1, Var 0, Node, Call 0 on 1, Call 0 on 2",
];

/// The labels' sum, with any body around it.
const WITH_SUM: &str = "number: Call 1 on 0 / number: Case 0, Var 0, Add, Call 1 on 1, Call 1 on 2";

/// A program in order and a tree, with sums at the ends of the range: labels
/// added up, or a chain of Adds around the sum of all labels.
pub fn program_and_tree(random: &mut Random) -> (Program, Tree) {
    let tree = any_shape(random);
    let total = match random.below(2) {
        0 => total_in_range(random),
        _ => total_out_of_range(random),
    };
    if random.below(3) == 0 {
        return chain(random, &tree, total);
    }
    let total = match tree {
        Tree::Leaf(_) => total.clamp(LEAST, GREATEST),
        Tree::Node(..) => total,
    };
    let summing = program(random.pick(&SUMMING));
    (summing, with_total(random, &tree, total))
}

/// A tree of a few tips, or with a long path.
fn any_shape(random: &mut Random) -> Tree {
    let (few, depth) = (1 + random.below(10), random.below(60));
    match random.below(6) {
        0 => left_caterpillar(random, depth),
        1 => right_caterpillar(random, depth),
        2 => mixed_caterpillar(random, depth),
        _ => tree(random, few),
    }
}

/// A chain of Adds around the sum of the tree's labels, which has the total.
/// All the sums inside fit. In a chain to the right each Add needs a word more.
fn chain(random: &mut Random, tree: &Tree, total: i64) -> (Program, Tree) {
    let to_left = random.below(2) == 0;
    let few = 1 + random.below(14);
    let count = if to_left { few * few } else { few };
    let (mut constants, mut inner) = (Vec::new(), total);
    for _ in 0..count {
        let (rest, constant) = split(random, inner);
        constants.push(constant);
        inner = i64::from(rest);
    }
    let mut with_sum = program(WITH_SUM);
    let inside = with_sum.functions[0].body.clone();
    let body = constants.into_iter().rev().fold(inside, |expr, constant| {
        let constant = Expr::constant(constant);
        match to_left {
            true => Expr::plus(expr, constant),
            false => Expr::plus(constant, expr),
        }
    });
    with_sum.functions[0].body = body;
    (with_sum, with_total(random, tree, inner))
}
