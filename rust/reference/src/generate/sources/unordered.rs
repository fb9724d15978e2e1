//! Generators of programs that pass pass one, with the tree names in any
//! order: any name that is bound may be used, any number of times.

use crate::order::pass_one::Context;
use crate::order::WORD_LIMIT;
use crate::program::{kind, Expr, Function, Program};
use crate::program::{FUNCTION_LIMIT, NODE_LIMIT, PARAMETER_LIMIT};
use crate::random::Random;

use super::super::evaluated::with_small_numbers;
use super::super::label;
use super::super::programs::counts;

/// So many tree names can be given by a byte.
const NAME_LIMIT: usize = 256;

/// A function without its body.
#[derive(Clone, Copy)]
struct Signature {
    tree_valued: bool,
    parameters: u8,
}

/// What the bodies of a program are like.
#[derive(Clone, Copy)]
struct Style {
    /// How often each kind with parts is drawn, by its number.
    weights: [usize; 9],
    /// The last part of an expression has nearly all of its records.
    last_part_longest: bool,
    /// Calls are on parts of tree 0, or on tree 0 and of a later function, so
    /// that the program ends on every tree.
    descending: bool,
    cases: Cases,
}

/// The trees that nearly all Cases of a program are on: any, tree 0, or the
/// left or right tree bound last, so that many node parts are taken one in the
/// other.
#[derive(Clone, Copy)]
enum Cases {
    Any,
    Top,
    Left,
    Right,
}

const DOWN: [Cases; 3] = [Cases::Top, Cases::Left, Cases::Right];

/// Add, IfZero, Let, Leaf, Node, Case, Call.
const EVEN: [usize; 9] = [0, 0, 3, 3, 3, 2, 3, 6, 4];

/// A program with any Calls: most go on for ever.
pub fn unordered(random: &mut Random) -> Program {
    let style = Style {
        weights: EVEN,
        last_part_longest: random.below(4) == 0,
        descending: false,
        cases: Cases::Any,
    };
    let (functions, nodes) = size(random);
    program(random, functions, nodes, style)
}

/// A program that ends on every tree, though perhaps after very many
/// expressions: a tree may be taken several times at every level.
pub fn descending(random: &mut Random) -> Program {
    let style = Style {
        weights: EVEN,
        last_part_longest: random.below(4) == 0,
        descending: true,
        cases: random.pick(&[Cases::Any, Cases::Any, Cases::Left, Cases::Right]),
    };
    let (functions, nodes) = size(random);
    program(random, functions, nodes, style)
}

/// A program with hundreds of tree names: Cases nested in the node parts of
/// others.
pub fn many_names(random: &mut Random) -> Program {
    let style = Style {
        weights: [0, 0, 1, 1, 1, 1, 1, 120, 2],
        last_part_longest: true,
        descending: random.below(4) > 0,
        cases: random.pick(&DOWN),
    };
    let functions = random.pick(&[1, 1, 2, 3]);
    let nodes = 500 + random.below(NODE_LIMIT - 500);
    program(random, functions, nodes, style)
}

/// A program whose expressions come to 15 and 16 words: Lets, sums and
/// arguments nested in the last parts of others, or hardly anything but Lets,
/// so that a tree is still expected there.
pub fn crowded(random: &mut Random) -> Program {
    let by_all = [0, 0, 4, 1, 6, 1, 1, 3, 4];
    let by_lets = [0, 0, 1, 1, 12, 0, 1, 3, 0];
    let style = Style {
        weights: random.pick(&[by_all, by_lets]),
        last_part_longest: true,
        descending: random.below(2) == 0,
        cases: random.pick(&DOWN),
    };
    let functions = 2 + random.below(4);
    let nodes = functions * (60 + random.below(100));
    program(random, functions, nodes, style)
}

/// Functions and nodes: few or some, rarely many.
fn size(random: &mut Random) -> (usize, usize) {
    let functions = match random.below(8) {
        0 | 1 => 1,
        2..=6 => 2 + random.below(5),
        _ => FUNCTION_LIMIT,
    };
    let each = random.pick(&[6, 12, 25, 50]);
    (functions, functions * (3 + random.below(each)))
}

/// A program with so many functions and about so many nodes, at most 1,024.
fn program(random: &mut Random, functions: usize, nodes: usize, style: Style) -> Program {
    let signatures = signatures(random, functions);
    let mut nodes = nodes;
    loop {
        let sizes = counts(random, nodes.max(functions), functions);
        let program = of_sizes(random, &signatures, &sizes, style);
        if program.nodes() <= NODE_LIMIT {
            return with_small_numbers(random, &program);
        }
        nodes = nodes * 3 / 4;
    }
}

/// "function 0 has none". The last function often gives a tree without number
/// parameters: only such a one can be called where 16 words stand.
fn signatures(random: &mut Random, functions: usize) -> Vec<Signature> {
    let signature = |k| {
        let plain_tree = k + 1 == functions && random.below(2) == 0;
        let parameters = random.below(PARAMETER_LIMIT + 1) as u8;
        Signature {
            tree_valued: plain_tree || random.below(2) == 0,
            parameters: if plain_tree || k == 0 { 0 } else { parameters },
        }
    };
    (0..functions).map(signature).collect()
}

fn of_sizes(
    random: &mut Random,
    signatures: &[Signature],
    sizes: &[usize],
    style: Style,
) -> Program {
    let function = |(own, &size): (usize, &usize)| {
        let Signature {
            tree_valued,
            parameters,
        } = signatures[own];
        let mut maker = Maker {
            random,
            signatures,
            style,
            own,
        };
        Function {
            tree_valued,
            parameters,
            body: maker.expression(Context::of_body(tree_valued, parameters), size),
        }
    };
    Program::new(sizes.iter().enumerate().map(function).collect())
}

/// Makes the body of one function.
struct Maker<'a> {
    random: &'a mut Random,
    signatures: &'a [Signature],
    style: Style,
    /// The function.
    own: usize,
}

impl Maker<'_> {
    /// An expression of about so many records.
    fn expression(&mut self, context: Context, size: usize) -> Expr {
        let kinds = self.kinds(context, size);
        if kinds.is_empty() {
            return self.short(context);
        }
        match self.random.pick(&kinds) {
            kind::ADD => {
                let sizes = self.sizes(size, 2);
                let p = self.expression(number(context, 0), sizes[0]);
                Expr::plus(p, self.expression(number(context, 1), sizes[1]))
            }
            kind::IF_ZERO => {
                let sizes = self.sizes(size, 3);
                let test = self.expression(number(context, 0), sizes[0]);
                let zero = self.expression(context, sizes[1]);
                Expr::if_zero(test, zero, self.expression(context, sizes[2]))
            }
            kind::LET => {
                let sizes = self.sizes(size, 2);
                let p = self.expression(number(context, 0), sizes[0]);
                Expr::let_in(p, self.expression(one_more_number(context), sizes[1]))
            }
            kind::LEAF => Expr::leaf(self.expression(number(context, 0), size - 1)),
            kind::NODE => {
                let sizes = self.sizes(size, 2);
                let p = self.expression(context, sizes[0]);
                Expr::node(p, self.expression(context, sizes[1]))
            }
            kind::CASE => self.case(context, size),
            _ => self.call(context, size),
        }
    }

    /// The kinds that can stand here with parts of so many records in all,
    /// each as often as its weight.
    fn kinds(&self, context: Context, size: usize) -> Vec<u8> {
        let Context { tree, words, .. } = context;
        if size < 3 {
            return vec![];
        }
        let one_number = words < WORD_LIMIT;
        let possible = [
            (kind::ADD, !tree && words + 1 < WORD_LIMIT),
            (kind::IF_ZERO, one_number),
            (kind::LET, one_number && self.can(tree, words + 1)),
            (kind::LEAF, tree && one_number),
            (kind::NODE, tree),
            (kind::CASE, one_number && self.can(tree, words + 1)),
            (kind::CALL, !self.callable(context, true).is_empty()),
        ];
        let possible = possible.iter().filter(|(_, possible)| *possible);
        possible
            .flat_map(|&(kind, _)| vec![kind; self.style.weights[usize::from(kind)]])
            .collect()
    }

    /// Whether an expression of this type can always be made where so many
    /// words stand. At 16 words there is no number, and no tree but by a Call
    /// without arguments.
    fn can(&self, tree: bool, words: usize) -> bool {
        let plain = |b: usize| {
            let signature = self.signatures[b];
            signature.tree_valued && signature.parameters == 0
        };
        words < WORD_LIMIT || (tree && words == WORD_LIMIT && self.called_on_0().any(plain))
    }

    /// The functions that may be called on tree 0, which is bound everywhere.
    fn called_on_0(&self) -> std::ops::Range<usize> {
        let first = if self.style.descending {
            self.own + 1
        } else {
            0
        };
        first..self.signatures.len()
    }

    /// The functions that can be called here, with or without arguments: there
    /// are words for them.
    fn callable(&self, context: Context, with_arguments: bool) -> Vec<usize> {
        let Context { tree, words, .. } = context;
        let functions = if context.trees > 1 {
            0..self.signatures.len()
        } else {
            self.called_on_0()
        };
        let fits = |b: &usize| {
            let signature = self.signatures[*b];
            let parameters = usize::from(signature.parameters);
            // The words of the arguments, or that of the number given.
            let more = parameters.max(usize::from(!tree));
            signature.tree_valued == tree
                && (parameters > 0) == with_arguments
                && words + more <= WORD_LIMIT
        };
        functions.filter(fits).collect()
    }

    /// Sizes for so many parts.
    fn sizes(&mut self, size: usize, parts: usize) -> Vec<usize> {
        let all = (size - 1).max(parts);
        if !self.style.last_part_longest {
            return counts(self.random, all, parts);
        }
        let mut sizes: Vec<usize> = (1..parts)
            .map(|_| self.random.pick(&[1, 1, 1, 2, 3]))
            .collect();
        let others: usize = sizes.iter().sum();
        sizes.push(all.saturating_sub(others).max(1));
        sizes
    }

    fn case(&mut self, context: Context, size: usize) -> Expr {
        let sizes = self.sizes(size, 2);
        let a = self.case_name(context.trees);
        let leaf = self.expression(one_more_number(context), sizes[0]);
        let two_more_trees = Context {
            trees: context.trees + 2,
            ..context
        };
        Expr::case(a, leaf, self.expression(two_more_trees, sizes[1]))
    }

    /// A tree name of those bound, for a Case. Left trees have odd names.
    fn case_name(&mut self, trees: usize) -> u8 {
        let bound = trees.min(NAME_LIMIT);
        let left = (bound - 1).div_ceil(2) * 2;
        let name = match self.style.cases {
            _ if self.random.below(100) == 0 => self.random.below(bound),
            Cases::Any => self.random.below(bound),
            Cases::Top => 0,
            Cases::Left => left.saturating_sub(1),
            Cases::Right => (bound - 1) / 2 * 2,
        };
        name as u8
    }

    /// A Call with arguments.
    fn call(&mut self, context: Context, size: usize) -> Expr {
        let b = self.random.pick(&self.callable(context, true));
        let sizes = self.sizes(size, usize::from(self.signatures[b].parameters));
        let arguments = sizes.iter().enumerate();
        let arguments = arguments.map(|(k, &size)| self.expression(number(context, k), size));
        let arguments = arguments.collect();
        Expr::call(self.call_name(b, context.trees), b as u16, arguments)
    }

    /// A tree name of those bound, for a Call of this function.
    fn call_name(&mut self, b: usize, trees: usize) -> u8 {
        let first = usize::from(!self.called_on_0().contains(&b));
        let name = first + self.random.below(trees.min(NAME_LIMIT) - first);
        name as u8
    }

    /// An expression of one or two records, if the words allow.
    fn short(&mut self, context: Context) -> Expr {
        let full = context.words == WORD_LIMIT;
        if full || self.random.below(3) == 0 {
            if let Some(call) = self.plain_call(context) {
                return call;
            }
        }
        assert!(!full, "a word for a number");
        if context.tree {
            return Expr::leaf(self.short(number(context, 0)));
        }
        if context.numbers > 0 && self.random.below(4) > 0 {
            Expr::var(self.random.below(context.numbers) as u8)
        } else {
            Expr::constant(label(self.random))
        }
    }

    /// A Call without arguments, if a function can be called so.
    fn plain_call(&mut self, context: Context) -> Option<Expr> {
        let plain = self.callable(context, false);
        if plain.is_empty() {
            return None;
        }
        let b = self.random.pick(&plain);
        let a = self.call_name(b, context.trees);
        Some(Expr::call(a, b as u16, vec![]))
    }
}

/// A number part with so many more words.
fn number(context: Context, words: usize) -> Context {
    Context {
        tree: false,
        words: context.words + words,
        ..context
    }
}

/// A part where a number more is bound.
fn one_more_number(context: Context) -> Context {
    Context {
        numbers: context.numbers + 1,
        words: context.words + 1,
        ..context
    }
}
