//! Damage to the names, types, words and order of a program, each kind aimed
//! at one fault, and changes at random.

use crate::order::{Fault, Found, PENDING_LIMIT, WORD_LIMIT};
use crate::program::{Expr, Program, NODE_LIMIT};
use crate::random::Random;

mod changes;
mod sites;

pub use changes::changed_program;

use sites::{put, sites, Site};

/// The program with this fault and where it is reported, or none where the program
/// has no place for it. The program given passes both passes.
pub fn apply(fault: Fault, random: &mut Random, program: &Program) -> Option<(Program, Found)> {
    let mut all = sites(program);
    if fault == Fault::TreesLeft {
        all.retain(|site| site.node == 0);
    }
    for _ in 0..20 {
        let site = &all[random.below(all.len())];
        let maker = Maker { program, site };
        let Some((expr, further)) = maker.faulty(fault, random) else {
            continue;
        };
        let damaged = put(program, site.function, site.node, &expr);
        if damaged.nodes() <= NODE_LIMIT {
            let position = site.position + further;
            return Some((damaged, Found { fault, position }));
        }
    }
    None
}

/// An expression that takes no tree and needs a word: a number, or a leaf.
fn nothing(tree: bool) -> Expr {
    if tree {
        Expr::leaf(Expr::constant(0))
    } else {
        Expr::constant(0)
    }
}

/// Makes an expression to stand at a site.
struct Maker<'a> {
    program: &'a Program,
    site: &'a Site<'a>,
}

impl Maker<'_> {
    /// An expression with this fault and, counted from its own record, where
    /// it is reported; none where it can't be at this site.
    fn faulty(&self, fault: Fault, random: &mut Random) -> Option<(Expr, usize)> {
        let context = self.site.context;
        let here = |expr| Some((expr, 0));
        match fault {
            Fault::VarNotBound => here(Expr::var(unbound(random, context.numbers)?)),
            Fault::CaseNotBound => here(self.case(unbound(random, context.trees)?)),
            Fault::CallNotBound => here(self.call(unbound(random, context.trees)?)),
            Fault::TreeExpected if context.tree => here(self.other_type(random)),
            Fault::NumberExpected if !context.tree => here(self.other_type(random)),
            Fault::WordsAtConst | Fault::WordsAtVar | Fault::WordsAtCase | Fault::WordsAtCall => {
                self.words(fault, random)
            }
            // The parts of a Case made here need a word more.
            _ if context.words + 2 > WORD_LIMIT => None,
            Fault::CaseNotHead => here(self.case(self.not_head(random)?)),
            Fault::CallNotHead => here(self.checked_call(self.not_head(random)?)?),
            Fault::CaseWithNone => here(self.case(self.with_none(random)?)),
            Fault::CallWithNone => here(self.checked_call(self.with_none(random)?)?),
            Fault::UnequalAtCase => here(self.unequal_case()?),
            Fault::UnequalAtIfZero => here(self.unequal_if_zero(random)?),
            Fault::TreesLeft => here(self.leaving(random)),
            Fault::PendingFull => self.chain(random),
            _ => None,
        }
    }

    fn case(&self, a: u8) -> Expr {
        let tree = self.site.context.tree;
        Expr::case(a, nothing(tree), nothing(tree))
    }

    /// A call of function 0, of whatever type.
    fn call(&self, a: u8) -> Expr {
        Expr::call(a, 0, vec![])
    }

    /// A function with this result and no number parameters.
    fn plain_function(&self, tree_valued: bool) -> Option<u16> {
        let mut functions = self.program.functions.iter();
        let found = functions.position(|f| f.tree_valued == tree_valued && f.parameters == 0);
        found.map(|b| b as u16)
    }

    /// A call of the right type.
    fn checked_call(&self, a: u8) -> Option<Expr> {
        let b = self.plain_function(self.site.context.tree)?;
        Some(Expr::call(a, b, vec![]))
    }

    /// A number where a tree is expected, or the other way round.
    fn other_type(&self, random: &mut Random) -> Expr {
        let tree = !self.site.context.tree;
        let join = if tree { Expr::node } else { Expr::plus };
        match (random.below(3), self.plain_function(tree)) {
            (0, _) => nothing(tree),
            (1, Some(b)) => Expr::call(0, b, vec![]),
            _ => join(nothing(tree), nothing(tree)),
        }
    }

    /// Lets or Adds up to 16 words, then a record that needs one more.
    fn words(&self, fault: Fault, random: &mut Random) -> Option<(Expr, usize)> {
        let context = self.site.context;
        let more = WORD_LIMIT - context.words;
        let one_more = match fault {
            Fault::WordsAtCase => self.case(0),
            _ if context.tree => return None,
            Fault::WordsAtConst => Expr::constant(1),
            Fault::WordsAtVar if context.numbers + more > 0 => Expr::var(0),
            Fault::WordsAtCall => Expr::call(0, self.plain_function(false)?, vec![]),
            _ => return None,
        };
        let adds = !context.tree && fault != Fault::WordsAtVar && random.below(2) == 0;
        let wrap = if adds { Expr::plus } else { Expr::let_in };
        let expr = (0..more).fold(one_more, |expr, _| wrap(Expr::constant(1), expr));
        Some((expr, 2 * more))
    }

    /// A bound tree that is not the head, where trees are pending.
    fn not_head(&self, random: &mut Random) -> Option<u8> {
        let head = *self.site.entered.first()?;
        let bound = 0..self.site.context.trees.min(256);
        let others: Vec<usize> = bound.filter(|&name| name != head).collect();
        (!others.is_empty()).then(|| random.pick(&others) as u8)
    }

    /// A bound tree, where none is pending.
    fn with_none(&self, random: &mut Random) -> Option<u8> {
        let bound = self.site.context.trees.min(256);
        self.site
            .entered
            .is_empty()
            .then(|| random.below(bound) as u8)
    }

    /// A Case with another node part, which leaves its two trees.
    fn unequal_case(&self) -> Option<Expr> {
        match self.site.expr {
            Expr::Case(a, leaf, _) => {
                let node = nothing(self.site.context.tree);
                Some(Expr::case(*a, Expr::clone(leaf), node))
            }
            _ => None,
        }
    }

    /// An IfZero with one branch that takes trees and one that takes none.
    fn unequal_if_zero(&self, random: &mut Random) -> Option<Expr> {
        if self.site.entered == self.site.left {
            return None;
        }
        let taking = self.site.expr.clone();
        let nothing = nothing(self.site.context.tree);
        let test = Expr::constant(0);
        if random.below(2) == 0 {
            Some(Expr::if_zero(test, taking, nothing))
        } else {
            Some(Expr::if_zero(test, nothing, taking))
        }
    }

    /// A body that takes no tree.
    fn leaving(&self, random: &mut Random) -> Expr {
        let nothing = || nothing(self.site.context.tree);
        match random.below(3) {
            0 => nothing(),
            1 => Expr::let_in(Expr::constant(1), nothing()),
            _ => Expr::if_zero(Expr::constant(1), nothing(), nothing()),
        }
    }

    /// Cases on the head, each the node part of the one before. The one with
    /// 16 pending is the last; its leaf part, which is never come to, may take
    /// a tree out of order.
    fn chain(&self, random: &mut Random) -> Option<(Expr, usize)> {
        let context = self.site.context;
        let more = PENDING_LIMIT - self.site.entered.len();
        let new = (0..more).map(|k| context.trees + 2 * k);
        let mut heads: Vec<usize> = new.collect();
        heads.insert(0, *self.site.entered.first()?);
        if heads.iter().any(|&head| head > 255) {
            return None;
        }
        let leaf = || nothing(context.tree);
        let last = heads.pop()? as u8;
        let out_of_order = self.checked_call(last).filter(|_| random.below(2) == 0);
        let last = Expr::case(last, out_of_order.unwrap_or(leaf()), leaf());
        let heads = heads.iter().rev();
        let chain = heads.fold(last, |node, &head| Expr::case(head as u8, leaf(), node));
        Some((chain, more * (1 + leaf().prefix().len())))
    }
}

/// A name that isn't bound, where so many are: the first, the last, or any.
fn unbound(random: &mut Random, bound: usize) -> Option<u8> {
    if bound > 255 {
        return None;
    }
    let any = bound + random.below(256 - bound);
    Some(random.pick(&[bound, bound, 255, any]) as u8)
}
