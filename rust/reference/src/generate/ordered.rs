//! Generators of programs that pass both passes: every expression is made for
//! the trees that it is to take, in order.

use crate::order::pass_one::Context;
use crate::order::PENDING_LIMIT;
use crate::program::{kind, Expr, Function, Program};
use crate::program::{FUNCTION_LIMIT, NODE_LIMIT, PARAMETER_LIMIT};
use crate::random::Random;

use super::label;
use super::programs::counts;

mod at;

pub(super) use at::At;

/// So many tree names can be given by a byte.
const NAME_LIMIT: usize = 256;

/// With no more words than this any trees can be taken: Add's second number
/// needs one more.
const WORDS_FOR_TAKING: usize = 14;

/// With no more words than this a number can be given.
const WORDS_FOR_A_NUMBER: usize = 15;

/// A function without its body.
#[derive(Clone, Copy)]
struct Signature {
    tree_valued: bool,
    parameters: u8,
}

/// A program of any size.
pub fn any_program(random: &mut Random) -> Program {
    let functions = match random.below(8) {
        0 | 1 => 1,
        2..=5 => 2 + random.below(4),
        6 => 1 + random.below(FUNCTION_LIMIT),
        _ => FUNCTION_LIMIT,
    };
    let nodes = match random.below(8) {
        0..=3 => functions * (1 + random.below(8)),
        4..=6 => functions * (1 + random.below(40)),
        _ => 300 + random.below(NODE_LIMIT - 300),
    };
    program(random, functions, nodes)
}

/// A program with so many functions and about so many nodes, at most 1,024.
pub fn program(random: &mut Random, functions: usize, nodes: usize) -> Program {
    by_bodies(random, functions, nodes, |maker, at| {
        maker.expression(at, &[0])
    })
}

/// As `program`, with bodies that `body` makes; each takes tree 0.
pub(super) fn by_bodies(
    random: &mut Random,
    functions: usize,
    nodes: usize,
    body: impl Fn(&mut Maker, At) -> Expr,
) -> Program {
    let signatures = signatures(random, functions);
    let mut nodes = nodes;
    loop {
        let sizes = counts(random, nodes.max(functions), functions);
        let program = of_sizes(random, &signatures, &sizes, &body);
        if program.nodes() <= NODE_LIMIT {
            return program;
        }
        nodes /= 2;
    }
}

/// Where there are two functions, one of the first two gives a tree and the
/// other a number, both without number parameters.
fn signatures(random: &mut Random, functions: usize) -> Vec<Signature> {
    let first = random.below(2) == 0;
    let signature = |k| match k {
        0 | 1 => Signature {
            tree_valued: first == (k == 0),
            parameters: 0,
        },
        _ => Signature {
            tree_valued: random.below(2) == 0,
            parameters: random.below(PARAMETER_LIMIT + 1) as u8,
        },
    };
    (0..functions).map(signature).collect()
}

fn of_sizes(
    random: &mut Random,
    signatures: &[Signature],
    sizes: &[usize],
    body: impl Fn(&mut Maker, At) -> Expr,
) -> Program {
    let function = |(signature, &size): (&Signature, &usize)| {
        let at = At {
            context: Context::of_body(signature.tree_valued, signature.parameters),
            behind: 0,
            size,
        };
        Function {
            tree_valued: signature.tree_valued,
            parameters: signature.parameters,
            body: body(&mut Maker { random, signatures }, at),
        }
    };
    Program::new(signatures.iter().zip(sizes).map(function).collect())
}

pub(super) struct Maker<'a> {
    pub(super) random: &'a mut Random,
    signatures: &'a [Signature],
}

impl Maker<'_> {
    /// A function with this result and no number parameters.
    fn plain_function(&self, tree_valued: bool) -> Option<u16> {
        let plain = |s: &Signature| s.tree_valued == tree_valued && s.parameters == 0;
        let found = self.signatures.iter().position(plain);
        found.map(|b| b as u16)
    }

    /// Whether an expression that gives a number can take trees. Without a
    /// number-valued function it can't: a Case alone only makes more.
    fn numbers_take(&self) -> bool {
        self.plain_function(false).is_some()
    }

    /// An expression that takes exactly these trees.
    pub(super) fn expression(&mut self, at: At, names: &[usize]) -> Expr {
        let kinds = self.kinds(at, names);
        if kinds.is_empty() || at.size < 2 + 2 * names.len() {
            return self.short(at, names);
        }
        match self.random.pick(&kinds) {
            kind::ADD => {
                let (p, q) = self.two_parts(at.number(0), at.number(1), names);
                Expr::plus(p, q)
            }
            kind::LET => {
                let (p, q) = self.two_parts(at.number(0), at.one_more_number(), names);
                Expr::let_in(p, q)
            }
            kind::NODE => {
                let (p, q) = self.two_parts(at, at, names);
                Expr::node(p, q)
            }
            kind::LEAF => Expr::leaf(self.expression(at.number(0).size(at.size - 1), names)),
            kind::IF_ZERO => self.if_zero(at, names),
            kind::CASE => self.case(at, names),
            _ => self.call(at, names),
        }
    }

    /// The kinds with parts that can stand here; Case several times, because
    /// little can be done with trees without it.
    fn kinds(&self, at: At, names: &[usize]) -> Vec<u8> {
        let Context {
            tree, trees, words, ..
        } = at.context;
        let taking = !names.is_empty();
        let room = words < WORDS_FOR_TAKING;
        let pending = at.behind + names.len();
        let case = taking && room && pending < PENDING_LIMIT && trees + 2 <= NAME_LIMIT;
        let leaf = tree && (!taking || self.numbers_take());
        let call = taking && !self.callable(at, names).is_empty();
        let possible = [
            (kind::ADD, !tree && room),
            (kind::LET, room),
            (kind::NODE, tree),
            (kind::LEAF, leaf),
            (kind::IF_ZERO, true),
            (kind::CASE, case),
            (kind::CASE, case),
            (kind::CASE, case),
            (kind::CASE, case),
            (kind::CALL, call),
            (kind::CALL, call),
        ];
        let kinds = possible.iter().filter(|(_, possible)| *possible);
        kinds.map(|&(kind, _)| kind).collect()
    }

    /// The functions with this result whose arguments can take all trees but
    /// the last.
    fn callable(&self, at: At, names: &[usize]) -> Vec<usize> {
        let fits = |s: &Signature| {
            let parameters = usize::from(s.parameters);
            s.tree_valued == at.context.tree
                && (names.len() == 1 || (parameters > 0 && self.numbers_take()))
                && at.context.words + parameters <= WORDS_FOR_TAKING
        };
        let functions = 0..self.signatures.len();
        functions.filter(|&b| fits(&self.signatures[b])).collect()
    }

    /// Sizes for so many parts.
    fn sizes(&mut self, at: At, parts: usize) -> Vec<usize> {
        counts(self.random, (at.size - 1).max(parts), parts)
    }

    /// How many of the trees the first of two parts takes.
    fn cut(&mut self, first: At, names: &[usize]) -> usize {
        if first.context.tree || self.numbers_take() {
            self.random.below(names.len() + 1)
        } else {
            0
        }
    }

    fn two_parts(&mut self, first: At, second: At, names: &[usize]) -> (Expr, Expr) {
        let sizes = self.sizes(first, 2);
        let cut = self.cut(first, names);
        let (one, two) = names.split_at(cut);
        let p = self.expression(first.size(sizes[0]).behind(two.len()), one);
        let q = self.expression(second.size(sizes[1]), two);
        (p, q)
    }

    fn if_zero(&mut self, at: At, names: &[usize]) -> Expr {
        let sizes = self.sizes(at, 3);
        let cut = self.cut(at.number(0), names);
        let (one, two) = names.split_at(cut);
        let test = self.expression(at.number(0).size(sizes[0]).behind(two.len()), one);
        let zero = self.expression(at.size(sizes[1]), two);
        let other = self.expression(at.size(sizes[2]), two);
        Expr::if_zero(test, zero, other)
    }

    /// The node part may have most of the records, so that many trees come to
    /// be pending.
    pub(super) fn case(&mut self, at: At, names: &[usize]) -> Expr {
        let sizes = self.sizes(at, 2);
        let size = self.random.pick(&[1, sizes[0]]);
        let rest = &names[1..];
        let leaf = self.expression(at.one_more_number().size(size), rest);
        let trees = at.context.trees;
        let mut inner = at.size(at.size - size - 1);
        inner.context.trees += 2;
        let node = self.expression(inner, &[&[trees, trees + 1], rest].concat());
        Expr::case(names[0] as u8, leaf, node)
    }

    fn call(&mut self, at: At, names: &[usize]) -> Expr {
        let b = self.random.pick(&self.callable(at, names));
        let parameters = usize::from(self.signatures[b].parameters);
        let (&tree, mut names) = names.split_last().expect("a tree to take");
        let mut arguments = Vec::new();
        for k in 0..parameters {
            let last = k + 1 == parameters;
            let cut = if last {
                names.len()
            } else {
                self.cut(at.number(k), names)
            };
            let (one, two) = names.split_at(cut);
            let at = at
                .number(k)
                .behind(two.len() + 1)
                .size(at.size / parameters);
            arguments.push(self.expression(at, one));
            names = two;
        }
        Expr::call(tree as u8, b as u16, arguments)
    }

    /// As short an expression as can be.
    fn short(&mut self, at: At, names: &[usize]) -> Expr {
        let plain = self.plain_function(at.context.tree);
        match (names, plain) {
            ([], _) if at.context.tree => Expr::leaf(self.short(at.number(0), names)),
            ([], _) => self.short_number(at.context),
            (_, Some(b)) => {
                let calls = names.iter().map(|&name| Expr::call(name as u8, b, vec![]));
                let join = if at.context.tree {
                    Expr::node
                } else {
                    Expr::plus
                };
                calls.reduce(join).expect("a tree to take")
            }
            (_, None) => Expr::leaf(self.short(at.number(0), names)),
        }
    }

    /// A Const or a Var.
    fn short_number(&mut self, context: Context) -> Expr {
        assert!(context.words <= WORDS_FOR_A_NUMBER, "a word for a number");
        if context.numbers > 0 && self.random.below(2) == 0 {
            Expr::var(self.random.below(context.numbers) as u8)
        } else {
            Expr::constant(label(self.random))
        }
    }
}
