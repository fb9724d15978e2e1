//! "Pass one, in prefix order, at each record: name bound, then type, then
//! words."

use crate::program::{Expr, Function, Program};

use super::{Fault, Found, WORD_LIMIT};

/// What holds on entering an expression. The parts of an expression have
/// contexts that follow from its own alone, right or not.
#[derive(Clone, Copy, Debug, PartialEq, Eq)]
pub struct Context {
    /// A tree is expected here, or else a number.
    pub tree: bool,
    /// The number names bound: those below this one.
    pub numbers: usize,
    /// The tree names bound: those below this one.
    pub trees: usize,
    /// The words above the frame's base.
    pub words: usize,
}

impl Context {
    /// On entering a function's body: "Names count from 0 along the path:
    /// parameters first". The number parameters are "the new frame's first
    /// words"; the tree parameter is tree 0.
    pub fn of_body(tree_valued: bool, parameters: u8) -> Context {
        Context {
            tree: tree_valued,
            numbers: usize::from(parameters),
            trees: 1,
            words: usize::from(parameters),
        }
    }
}

/// The first fault of pass one, over all functions.
pub fn check(program: &Program) -> Result<(), Found> {
    let functions = &program.functions;
    let mut position = 1 + functions.len();
    for function in functions {
        for (expr, context) in contexts(function) {
            if let Some(fault) = fault(expr, context, functions) {
                return Err(Found { fault, position });
            }
            position += 1;
        }
    }
    Ok(())
}

/// The expressions of a function in prefix order, with their contexts.
pub fn contexts(function: &Function) -> Vec<(&Expr, Context)> {
    let first = Context::of_body(function.tree_valued, function.parameters);
    let mut entered = Vec::new();
    let mut pending = vec![(&function.body, first)];
    while let Some((expr, context)) = pending.pop() {
        entered.push((expr, context));
        let parts = expr.parts().into_iter();
        pending.extend(parts.zip(contexts_of_parts(expr, context)).rev());
    }
    entered
}

/// "Add's parts, tests, Let's first part, Leaf's part and arguments are
/// numbers; Node's parts are trees; other parts take the type expected of the
/// whole."; "Let's body and Case's leaf part add one number name, Case's node
/// part two tree names". A word stands for Add's first number, a bound number
/// and each argument before the present one.
fn contexts_of_parts(expr: &Expr, context: Context) -> Vec<Context> {
    let number = |words| Context {
        tree: false,
        words,
        ..context
    };
    let words = context.words;
    let one_more_number = Context {
        numbers: context.numbers + 1,
        words: words + 1,
        ..context
    };
    let two_more_trees = Context {
        trees: context.trees + 2,
        ..context
    };
    let tree = Context {
        tree: true,
        ..context
    };
    match expr {
        Expr::Const(_) | Expr::Var(_) => vec![],
        Expr::Add(..) => vec![number(words), number(words + 1)],
        Expr::IfZero(..) => vec![number(words), context, context],
        Expr::Let(..) => vec![number(words), one_more_number],
        Expr::Leaf(_) => vec![number(words)],
        Expr::Node(..) => vec![tree, tree],
        Expr::Case(..) => vec![one_more_number, two_more_trees],
        Expr::Call(_, _, arguments) => (0..arguments.len()).map(|k| number(words + k)).collect(),
    }
}

/// "at each record: name bound, then type, then words."
fn fault(expr: &Expr, context: Context, functions: &[Function]) -> Option<Fault> {
    not_bound(expr, context)
        .or_else(|| wrong_type(expr, context, functions))
        .or_else(|| too_many_words(expr, context, functions))
}

fn not_bound(expr: &Expr, context: Context) -> Option<Fault> {
    let (name, bound, fault) = match *expr {
        Expr::Var(a) => (a, context.numbers, Fault::VarNotBound),
        Expr::Case(a, ..) => (a, context.trees, Fault::CaseNotBound),
        Expr::Call(a, ..) => (a, context.trees, Fault::CallNotBound),
        _ => return None,
    };
    (usize::from(name) >= bound).then_some(fault)
}

fn wrong_type(expr: &Expr, context: Context, functions: &[Function]) -> Option<Fault> {
    let gives_tree = match expr {
        Expr::Const(_) | Expr::Var(_) | Expr::Add(..) => false,
        Expr::Leaf(_) | Expr::Node(..) => true,
        Expr::Call(_, b, _) => functions[usize::from(*b)].tree_valued,
        // These have the type that is expected of them.
        Expr::IfZero(..) | Expr::Let(..) | Expr::Case(..) => return None,
    };
    match (gives_tree, context.tree) {
        (false, true) => Some(Fault::TreeExpected),
        (true, false) => Some(Fault::NumberExpected),
        _ => None,
    }
}

/// "It is tested on entering Const, Var, Case, and a number-valued Call with
/// no arguments: refused where 16 stand already."
fn too_many_words(expr: &Expr, context: Context, functions: &[Function]) -> Option<Fault> {
    let fault = match expr {
        Expr::Const(_) => Fault::WordsAtConst,
        Expr::Var(_) => Fault::WordsAtVar,
        Expr::Case(..) => Fault::WordsAtCase,
        Expr::Call(_, b, arguments) => {
            if functions[usize::from(*b)].tree_valued || !arguments.is_empty() {
                return None;
            }
            Fault::WordsAtCall
        }
        _ => return None,
    };
    (context.words >= WORD_LIMIT).then_some(fault)
}
