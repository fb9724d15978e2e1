//! Programs made at random together with what they give: each expression is
//! made for numbers and trees that are known, and so is its value.

mod maker;

use reference::generate::{self, sums::with_moderate_labels};
use reference::{Expr, Program, Random, Tree};

use super::{number_valued, tree_valued};
use maker::{Maker, Scope, Value};

/// Functions that are called.
const SUM: u16 = 1;
const WEIGHED: u16 = 2;
const MIRRORED: u16 = 3;

/// The number parameters that `WEIGHED` adds up, one after the other.
const WEIGHTS: [u8; 10] = [0, 1, 1, 2, 2, 2, 3, 3, 3, 3];

/// A program on a tree, and what its source run gives.
pub struct Constructed {
    pub program: Program,
    pub tokens: Vec<u8>,
    pub number: i32,
    pub bytes: Vec<u8>,
    pub begun: u64,
    /// Whether all its sums are in range. Where they are not it gives nothing.
    pub fits: bool,
}

impl Constructed {
    /// With so many Cases, each in the node part of the one before, around an
    /// expression of about so many records, which has all their names.
    pub fn new(random: &mut Random, cases: usize, size: usize) -> Constructed {
        let (tree, path) = tree_with_path(random, cases);
        let tree_result = random.below(2) == 0;
        let mut scope = Scope {
            numbers: vec![],
            trees: vec![&tree],
            words: 0,
        };
        let mut name = 0;
        let mut names = Vec::new();
        for goes_right in path {
            names.push(name);
            let left = scope.trees.len();
            scope.bind_parts(name);
            name = (left + usize::from(goes_right)) as u8;
        }
        let mut maker = Maker { random, fits: true };
        let mut made = maker.expression(&scope, tree_result, size);
        let fits = maker.fits;
        for name in names.into_iter().rev() {
            let leaf = match tree_result {
                true => Expr::leaf(Expr::var(0)),
                false => Expr::var(0),
            };
            made.expr = Expr::case(name, leaf, made.expr);
            made.begun += 1;
        }
        let tokens = tree.tokens();
        let (number, bytes) = match made.value {
            Value::Number(number) => (number, vec![]),
            Value::Tree(bytes) => (0, bytes),
        };
        Constructed {
            program: program(tree_result, made.expr),
            tokens,
            number,
            bytes,
            begun: made.begun,
            fits,
        }
    }
}

/// The program with this body of function 0.
fn program(tree_result: bool, body: Expr) -> Program {
    let first = match tree_result {
        true => tree_valued(0, body),
        false => number_valued(0, body),
    };
    Program::new(vec![
        first,
        number_valued(0, sum_body()),
        number_valued(4, weighed_body()),
        tree_valued(1, mirrored_body()),
    ])
}

/// The sum of all labels: 2 expressions for a leaf, 4 for a node.
fn sum_body() -> Expr {
    let call = |tree| Expr::call(tree, SUM, vec![]);
    Expr::case(0, Expr::var(0), Expr::plus(call(1), call(2)))
}

/// The sum of all labels and of the parameters, each by its weight: an Add and
/// a Var for each, and the Call.
fn weighed_body() -> Expr {
    let sum = Expr::call(0, SUM, vec![]);
    let vars = WEIGHTS.iter().map(|&name| Expr::var(name));
    vars.fold(sum, Expr::plus)
}

/// The tree with the parts of each node exchanged and the parameter added to
/// each label: 5 expressions for a leaf, 6 for a node.
fn mirrored_body() -> Expr {
    let call = |tree| Expr::call(tree, MIRRORED, vec![Expr::var(0)]);
    let leaf = Expr::leaf(Expr::plus(Expr::var(1), Expr::var(0)));
    Expr::case(0, leaf, Expr::node(call(2), call(1)))
}

/// A tree with a path of so many nodes, and whether the path goes to the right
/// at each; small trees stand beside it.
fn tree_with_path(random: &mut Random, nodes: usize) -> (Tree, Vec<bool>) {
    let path: Vec<bool> = (0..nodes).map(|_| random.below(2) == 0).collect();
    let mut tree = small_tree(random);
    for &goes_right in path.iter().rev() {
        let beside = small_tree(random);
        tree = match goes_right {
            true => Tree::node(beside, tree),
            false => Tree::node(tree, beside),
        };
    }
    (tree, path)
}

fn small_tree(random: &mut Random) -> Tree {
    let tips = 1 + random.below(4);
    let tree = generate::tree(random, tips);
    with_moderate_labels(random, &tree)
}
