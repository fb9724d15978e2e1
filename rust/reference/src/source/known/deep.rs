//! Trees as deep as the tree reader takes, hundreds of tree names, and as
//! many expressions nested in each other as can be.

use crate::order::known::text::program;
use crate::program::{Expr, Function, Program};
use crate::tree::{Token, Tree};

use super::{ended, file, refused, with_answer, Known, SourceCase, Sourced};

pub fn runs() -> Vec<Known> {
    let mut runs = trees();
    runs.extend(names());
    runs.extend(expressions());
    runs
}

/// The run with this fuel, and no output.
fn run(name: &str, program: &Program, tree: &Tree, fuel: u64, answer: Sourced) -> Known {
    let case = SourceCase::new(&file(program), &tree.tokens(), fuel, 0);
    with_answer(name, case, answer, &[])
}

/// The caterpillar of that depth whose right parts are leaves. The leaf at
/// the left has label 7, the others 1.
fn left(depth: usize) -> Tree {
    let mut tokens = vec![Token::Node; depth];
    tokens.push(Token::Leaf(7));
    tokens.extend(vec![Token::Leaf(1); depth]);
    Tree::from_prefix(&tokens).expect("a tree")
}

/// The caterpillar of that depth whose left parts are leaves. The leaf at the
/// right has label 7, the others 1.
fn right(depth: usize) -> Tree {
    let mut tokens = [Token::Node, Token::Leaf(1)].repeat(depth);
    tokens.push(Token::Leaf(7));
    Tree::from_prefix(&tokens).expect("a tree")
}

/// "A node tag under 1,024 others is refused; a leaf under 1,024 nodes is
/// read." A node and a leaf at its left take 6 bytes.
fn trees() -> Vec<Known> {
    let unread = program("number: Const 3");
    let run = |name, tree, answer| run(name, &unread, &tree, 1, answer);
    let deepest = ended(1, 3, (1_025, 1_024));
    vec![
        run("depth 1,024 to the left", left(1_024), deepest),
        run("depth 1,024 to the right", right(1_024), deepest),
        run("1,025 to the left", left(1_025), refused(20, 1_024, 0)),
        run("1,025 to the right", right(1_025), refused(20, 6_144, 0)),
        run("2,000 to the left", left(2_000), refused(20, 1_024, 0)),
        run("2,000 to the right", right(2_000), refused(20, 6_144, 0)),
    ]
}

/// 511 Cases, each in the node part of the one before, on the trees of these
/// names. The innermost node part is Const -1; a leaf part is its label.
fn cases(name: impl Fn(usize) -> usize) -> Program {
    let body = (0..511).rev().fold(Expr::constant(-1), |node, above| {
        let name = name(above).min(255) as u8;
        Expr::case(name, Expr::var(0), node)
    });
    Program::new(vec![Function {
        tree_valued: false,
        parameters: 0,
        body,
    }])
}

/// Each Case is on the left, or the right, tree of the one before, as long as
/// a byte can tell its name, and then on the last of these again and again.
/// Up to 1,023 tree names are bound.
fn names() -> Vec<Known> {
    let to_left = cases(|above| (2 * above).saturating_sub(1));
    let to_right = cases(|above| (2 * above).min(254));
    let run = |name, program, tree: Tree, answer: Sourced| {
        run(name, program, &tree, answer.begun, answer)
    };
    let run_left = |name, tree, answer| run(name, &to_left, tree, answer);
    let run_right = |name, tree, answer| run(name, &to_right, tree, answer);
    let most = (1_025, 1_024);
    vec![
        run_left("left, tree 0", left(0), ended(2, 7, (1, 0))),
        run_left("left, tree 1", left(1), ended(3, 7, (2, 1))),
        run_left("left, tree 253", left(127), ended(129, 7, (128, 127))),
        run_left("left, tree 255", left(128), ended(130, 7, (129, 128))),
        run_left("left, 255 a node", left(129), ended(512, -1, (130, 129))),
        run_left("left, 1,024 levels", left(1_024), ended(512, -1, most)),
        run_left("left, a leaf", right(1), ended(3, 1, (2, 1))),
        run_right("right, tree 0", right(0), ended(2, 7, (1, 0))),
        run_right("right, tree 2", right(1), ended(3, 7, (2, 1))),
        run_right("right, tree 254", right(127), ended(129, 7, (128, 127))),
        run_right("right, 254 a node", right(128), ended(512, -1, (129, 128))),
        run_right("right, 1,024 levels", right(1_024), ended(512, -1, most)),
        run_right("right, a leaf", left(1), ended(3, 1, (2, 1))),
    ]
}

/// In function 1 1,021 Calls of itself, each the argument of the one before,
/// the innermost argument being Var 0: with 1,024 calls open 1,023 of them
/// have begun 1,022 expressions each. The first has begun two.
fn expressions() -> Vec<Known> {
    let nest = (0..1_021).fold(Expr::var(0), |argument, _| Expr::call(0, 1, vec![argument]));
    let function = |parameters, body| Function {
        tree_valued: false,
        parameters,
        body,
    };
    let first = Expr::call(0, 1, vec![Expr::constant(1)]);
    let program = Program::new(vec![function(0, first), function(1, nest)]);
    let begun = 2 + 1_023 * 1_022;
    let run = |name, fuel, answer| run(name, &program, &left(1), fuel, answer);
    let (much, less) = (u64::MAX, begun - 1);
    vec![
        run("arguments, much fuel", much, refused(18, 0, begun)),
        run("arguments, enough", begun, refused(18, 0, begun)),
        run("arguments, less fuel", less, refused(14, 0, less)),
    ]
}
