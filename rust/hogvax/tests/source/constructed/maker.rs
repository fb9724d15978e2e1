//! Expressions made at random, each with its value and the expressions begun.

use reference::generate::{evaluated::SMALL_NUMBERS, SPECIAL_LABELS};
use reference::{Expr, Random, Token, Tree};

use super::{MIRRORED, SUM, WEIGHED, WEIGHTS};

/// "16 is the most."
const MOST_WORDS: usize = 16;

/// So many tree names can be given by a byte.
const MOST_NAMES: usize = 256;

/// The leaves and the nodes of a tree.
fn counts(tree: &Tree) -> (u64, u64) {
    let leaves = tree.tips() as u64;
    (leaves, leaves - 1)
}

/// The numbers and trees that are named, and the words that stand.
#[derive(Clone)]
pub struct Scope<'t> {
    pub numbers: Vec<i32>,
    pub trees: Vec<&'t Tree>,
    pub words: usize,
}

impl<'t> Scope<'t> {
    /// Names the parts of a node; of a leaf, which has none, the leaf twice.
    pub fn bind_parts(&mut self, name: u8) {
        let tree = self.trees[usize::from(name)];
        let parts = match tree {
            Tree::Node(left, right) => [&**left, &**right],
            Tree::Leaf(_) => [tree; 2],
        };
        self.trees.extend(parts);
    }

    /// With so many words more.
    fn with_words(&self, words: usize) -> Scope<'t> {
        Scope {
            words: self.words + words,
            ..self.clone()
        }
    }

    /// With a number named.
    fn with_number(&self, number: i32) -> Scope<'t> {
        let mut scope = self.with_words(1);
        scope.numbers.push(number);
        scope
    }

    /// Whether a number may stand here with so many words more.
    fn has_room(&self, words: usize) -> bool {
        self.words + words < MOST_WORDS
    }
}

pub enum Value {
    Number(i32),
    /// The tokens.
    Tree(Vec<u8>),
}

/// An expression, its value, and the expressions begun for it.
pub struct Made {
    pub expr: Expr,
    pub value: Value,
    pub begun: u64,
}

impl Made {
    fn number(&self) -> i32 {
        match self.value {
            Value::Number(number) => number,
            Value::Tree(_) => panic!("a number is made"),
        }
    }

    fn bytes(self) -> (Expr, Vec<u8>) {
        match self.value {
            Value::Tree(bytes) => (self.expr, bytes),
            Value::Number(_) => panic!("a tree is made"),
        }
    }
}

pub struct Maker<'r> {
    pub random: &'r mut Random,
    /// Whether all sums that are evaluated are in range so far.
    pub fits: bool,
}

impl Maker<'_> {
    /// Any number where the sum is out of range.
    fn add(&mut self, left: i32, right: i32) -> i32 {
        let sum = left.checked_add(right);
        self.fits &= sum.is_some();
        sum.unwrap_or(0)
    }

    /// What `SUM` gives.
    fn sum(&mut self, tree: &Tree) -> i32 {
        match tree {
            Tree::Leaf(label) => *label,
            Tree::Node(left, right) => {
                let (left, right) = (self.sum(left), self.sum(right));
                self.add(left, right)
            }
        }
    }

    /// What `MIRRORED` gives.
    fn mirrored(&mut self, tree: &Tree, number: i32, bytes: &mut Vec<u8>) {
        match tree {
            Tree::Leaf(label) => Token::Leaf(self.add(*label, number)).write(bytes),
            Tree::Node(left, right) => {
                Token::Node.write(bytes);
                self.mirrored(right, number, bytes);
                self.mirrored(left, number, bytes);
            }
        }
    }

    /// An expression that is not evaluated, whose sums do not matter.
    fn not_taken(&mut self, scope: &Scope, tree: bool, size: usize) -> Made {
        let fits = self.fits;
        let made = self.expression(scope, tree, size);
        self.fits = fits;
        made
    }

    /// An expression of about so many records that gives a tree or a number. A
    /// number always has room for its own word.
    pub fn expression(&mut self, scope: &Scope, tree: bool, size: usize) -> Made {
        let room = scope.has_room(1);
        match (size, self.random.below(8)) {
            (0..=2, _) if tree => self.short_tree(scope),
            (0..=2, _) => self.short_number(scope),
            (_, 0) if room => self.let_in(scope, tree, size),
            (_, 1) => self.if_zero(scope, tree, size),
            (_, 2 | 3) if room => self.case(scope, tree, size),
            (_, 4) if tree => self.mirror(scope, size),
            (_, 4 | 5) if scope.has_room(3) && !tree => self.weigh(scope, size),
            (_, _) if tree => self.node(scope, size),
            (_, _) if room => self.plus(scope, size),
            _ => self.short_number(scope),
        }
    }

    fn number(&mut self, scope: &Scope, size: usize) -> Made {
        self.expression(scope, false, size)
    }

    /// The size of the first of two parts, and of the second.
    fn split(&mut self, size: usize) -> (usize, usize) {
        let first = self.random.below(size);
        (first, size - 1 - first)
    }

    /// A tree name of those that are bound, each as likely.
    fn name(&mut self, scope: &Scope) -> u8 {
        self.random.below(scope.trees.len().min(MOST_NAMES)) as u8
    }

    fn short_number(&mut self, scope: &Scope) -> Made {
        let (expr, number, begun) = match self.random.below(4) {
            0 => {
                let name = self.name(scope);
                let tree = scope.trees[usize::from(name)];
                let (leaves, nodes) = counts(tree);
                let begun = 1 + 2 * leaves + 4 * nodes;
                (Expr::call(name, SUM, vec![]), self.sum(tree), begun)
            }
            1 | 2 if !scope.numbers.is_empty() => {
                let name = self.random.below(scope.numbers.len());
                (Expr::var(name as u8), scope.numbers[name], 1)
            }
            _ => {
                let number = match self.random.below(16) {
                    0 => self.random.pick(&SPECIAL_LABELS),
                    _ => self.random.pick(&SMALL_NUMBERS),
                };
                (Expr::constant(number), number, 1)
            }
        };
        Made {
            expr,
            value: Value::Number(number),
            begun,
        }
    }

    fn short_tree(&mut self, scope: &Scope) -> Made {
        let label = self.short_number(scope);
        self.leaf(label)
    }

    fn leaf(&mut self, label: Made) -> Made {
        let mut bytes = Vec::new();
        Token::Leaf(label.number()).write(&mut bytes);
        Made {
            expr: Expr::leaf(label.expr),
            value: Value::Tree(bytes),
            begun: 1 + label.begun,
        }
    }

    fn plus(&mut self, scope: &Scope, size: usize) -> Made {
        let (first, second) = self.split(size);
        let left = self.number(scope, first);
        let right = self.number(&scope.with_words(1), second);
        Made {
            value: Value::Number(self.add(left.number(), right.number())),
            expr: Expr::plus(left.expr, right.expr),
            begun: 1 + left.begun + right.begun,
        }
    }

    fn node(&mut self, scope: &Scope, size: usize) -> Made {
        let (first, second) = self.split(size);
        let left = self.expression(scope, true, first);
        let right = self.expression(scope, true, second);
        let begun = 1 + left.begun + right.begun;
        let ((left, left_bytes), (right, right_bytes)) = (left.bytes(), right.bytes());
        Made {
            expr: Expr::node(left, right),
            value: Value::Tree([vec![2], left_bytes, right_bytes].concat()),
            begun,
        }
    }

    fn let_in(&mut self, scope: &Scope, tree: bool, size: usize) -> Made {
        let (first, second) = self.split(size);
        let number = self.number(scope, first);
        let body = self.expression(&scope.with_number(number.number()), tree, second);
        Made {
            expr: Expr::let_in(number.expr, body.expr),
            begun: 1 + number.begun + body.begun,
            ..body
        }
    }

    /// The part that is not taken is made like the other.
    fn if_zero(&mut self, scope: &Scope, tree: bool, size: usize) -> Made {
        let (first, rest) = self.split(size);
        let test = self.number(scope, first);
        let taken = self.expression(scope, tree, rest / 2);
        let other = self.not_taken(scope, tree, rest / 2);
        let begun = 1 + test.begun + taken.begun;
        let expr = match test.number() {
            0 => Expr::if_zero(test.expr, taken.expr, other.expr),
            _ => Expr::if_zero(test.expr, other.expr, taken.expr),
        };
        Made {
            expr,
            begun,
            value: taken.value,
        }
    }

    fn case(&mut self, scope: &Scope, tree: bool, size: usize) -> Made {
        let (first, second) = self.split(size);
        let name = self.name(scope);
        let named = scope.trees[usize::from(name)];
        let label = match named {
            Tree::Leaf(label) => *label,
            Tree::Node(..) => 0,
        };
        let labelled = scope.with_number(label);
        let mut parts = scope.clone();
        parts.bind_parts(name);
        let (leaf, node, is_leaf) = match named {
            Tree::Leaf(_) => {
                let leaf = self.expression(&labelled, tree, first);
                (leaf, self.not_taken(&parts, tree, second), true)
            }
            Tree::Node(..) => {
                let leaf = self.not_taken(&labelled, tree, first);
                (leaf, self.expression(&parts, tree, second), false)
            }
        };
        let (value, begun) = match is_leaf {
            true => (leaf.value, leaf.begun),
            false => (node.value, node.begun),
        };
        Made {
            expr: Expr::case(name, leaf.expr, node.expr),
            value,
            begun: 1 + begun,
        }
    }

    /// A call with four arguments.
    fn weigh(&mut self, scope: &Scope, size: usize) -> Made {
        let name = self.name(scope);
        let argument = |k| self.number(&scope.with_words(k), size / 4);
        let arguments: Vec<Made> = (0..4).map(argument).collect();
        let tree = scope.trees[usize::from(name)];
        let weighed = WEIGHTS.iter().fold(self.sum(tree), |sum, &k| {
            self.add(sum, arguments[usize::from(k)].number())
        });
        let (leaves, nodes) = counts(tree);
        let body = 2 * WEIGHTS.len() as u64 + 1 + 2 * leaves + 4 * nodes;
        let begun: u64 = arguments.iter().map(|argument| argument.begun).sum();
        let arguments = arguments.into_iter().map(|argument| argument.expr);
        Made {
            expr: Expr::call(name, WEIGHED, arguments.collect()),
            value: Value::Number(weighed),
            begun: 1 + begun + body,
        }
    }

    fn mirror(&mut self, scope: &Scope, size: usize) -> Made {
        let name = self.name(scope);
        let argument = self.number(scope, size - 1);
        let tree = scope.trees[usize::from(name)];
        let mut bytes = Vec::new();
        self.mirrored(tree, argument.number(), &mut bytes);
        let (leaves, nodes) = counts(tree);
        Made {
            expr: Expr::call(name, MIRRORED, vec![argument.expr]),
            value: Value::Tree(bytes),
            begun: 1 + argument.begun + 5 * leaves + 6 * nodes,
        }
    }
}
