//! Pass two as typing: document 000's Figure 6 with document 01's rules for
//! Let and IfZero, trying every way to split an ordered environment. This
//! gives the verdict, but no position. Types and bound names are pass one's; only
//! the ordered environments are looked at here.

use std::collections::HashMap;

use crate::program::{Expr, Program};

/// An ordered environment: tree names in the order in which they must be
/// taken.
type Environment = [usize];

/// Whether every function has a derivation: all functions stand in the
/// non-ordered environment, and each body is typed with its tree parameter
/// alone in the ordered one. With a limit, no list of the derivation may be
/// longer. Figure 6's environments are parts of the whole list, so each
/// judgement is taken with the number of names that stand after its own.
pub fn typable(program: &Program, limit: Option<usize>) -> bool {
    let mut bodies = program.functions.iter().map(|function| &function.body);
    bodies.all(|body| {
        let mut splits = Splits {
            limit,
            known: HashMap::new(),
        };
        splits.holds(body, 1, &[0], 0)
    })
}

/// An expression, known by its address; an ordered environment; the number of
/// names after it.
type Judgement = (*const Expr, Vec<usize>, usize);

struct Splits {
    limit: Option<usize>,
    /// The judgements tried so far.
    known: HashMap<Judgement, bool>,
}

impl Splits {
    /// Whether the judgement has a derivation. `trees` is the number of tree
    /// names bound along the path, which the expression determines.
    fn holds(&mut self, expr: &Expr, trees: usize, names: &Environment, behind: usize) -> bool {
        let judgement = (expr as *const Expr, names.to_vec(), behind);
        if let Some(&known) = self.known.get(&judgement) {
            return known;
        }
        let holds = self.by_rule(expr, trees, names, behind);
        self.known.insert(judgement, holds);
        holds
    }

    fn by_rule(&mut self, expr: &Expr, trees: usize, names: &Environment, behind: usize) -> bool {
        match expr {
            // T-Int, T-Var2: the ordered environment is empty.
            Expr::Const(_) | Expr::Var(_) => names.is_empty(),
            // T-Leaf.
            Expr::Leaf(number) => self.holds(number, trees, names, behind),
            // T-Plus, T-Node; 01: "Let's number part comes first, then its
            // body over the trees still pending".
            Expr::Add(p, q) | Expr::Node(p, q) | Expr::Let(p, q) => any_split(names, |one, two| {
                self.holds(p, trees, one, two.len() + behind) && self.holds(q, trees, two, behind)
            }),
            // Both parts have what the test leaves.
            Expr::IfZero(test, zero, other) => any_split(names, |one, two| {
                self.holds(test, trees, one, two.len() + behind)
                    && self.holds(zero, trees, two, behind)
                    && self.holds(other, trees, two, behind)
            }),
            Expr::Case(a, leaf, node) => any_split(names, |one, two| {
                is_tree(*a, one) && self.case(leaf, node, trees, two, behind)
            }),
            Expr::Call(a, _, arguments) => self.call(*a, arguments, trees, names, behind),
        }
    }

    /// T-Case, but for its tree: the leaf part has what is after the tree,
    /// the node part the two new names before that. The list on entering is
    /// one longer than what is after it, and that of the node part two.
    fn case(
        &mut self,
        leaf: &Expr,
        node: &Expr,
        trees: usize,
        rest: &Environment,
        behind: usize,
    ) -> bool {
        let longest = 2 + rest.len() + behind;
        if self.limit.is_some_and(|limit| longest > limit) {
            return false;
        }
        let names = [&[trees, trees + 1], rest].concat();
        self.holds(leaf, trees, rest, behind) && self.holds(node, trees + 2, &names, behind)
    }

    /// T-App for each argument and at last for the tree: "Call takes the head
    /// after its arguments". The function itself is in the non-ordered
    /// environment.
    fn call(
        &mut self,
        a: u8,
        arguments: &[Expr],
        trees: usize,
        names: &Environment,
        behind: usize,
    ) -> bool {
        match arguments.split_first() {
            None => is_tree(a, names),
            Some((first, others)) => any_split(names, |one, two| {
                self.holds(first, trees, one, two.len() + behind)
                    && self.call(a, others, trees, two, behind)
            }),
        }
    }
}

/// T-Var1: a tree is typed by itself alone.
fn is_tree(a: u8, names: &Environment) -> bool {
    names == [usize::from(a)]
}

/// Whether it holds for some way to cut the environment in two.
fn any_split(
    names: &Environment,
    mut holds: impl FnMut(&Environment, &Environment) -> bool,
) -> bool {
    (0..=names.len()).any(|place| {
        let (one, two) = names.split_at(place);
        holds(one, two)
    })
}
