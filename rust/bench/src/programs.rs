//! The programs that are run, as program files.

use reference::{lay_out, Expr, Function};

pub struct Program {
    pub name: &'static str,
    /// The program file.
    pub file: Vec<u8>,
    /// Whether it gives a tree, which has the shape of its input, or a number.
    pub tree_valued: bool,
    /// The calls open where its tree begins, the first one counted.
    pub open: usize,
}

/// Grow adds 1 to every label. Sum adds the labels. Fill hands a number down,
/// 10 and the nodes above, and puts it for labels 0: it has Let, IfZero and
/// number arguments.
pub fn programs() -> [Program; 3] {
    [
        ("Grow", vec![grow()], 1),
        ("Sum", vec![sum()], 1),
        ("Fill", fill(), 2),
    ]
    .map(|(name, functions, open)| Program {
        name,
        tree_valued: functions[0].tree_valued,
        file: lay_out(&reference::Program::new(functions).records()),
        open,
    })
}

fn var(name: u8) -> Expr {
    Expr::var(name)
}

/// A call of function 0.
fn call(tree: u8) -> Expr {
    Expr::call(tree, 0, vec![])
}

/// Case 0, Leaf, Add, Var 0, Const 1, Node, Call 0 on 1, Call 0 on 2.
fn grow() -> Function {
    let leaf = Expr::leaf(Expr::plus(var(0), Expr::constant(1)));
    Function {
        tree_valued: true,
        parameters: 0,
        body: Expr::case(0, leaf, Expr::node(call(1), call(2))),
    }
}

/// Case 0, Var 0, Add, Call 0 on 1, Call 0 on 2.
fn sum() -> Function {
    Function {
        tree_valued: false,
        parameters: 0,
        body: Expr::case(0, var(0), Expr::plus(call(1), call(2))),
    }
}

/// Function 0: Call 1 on 0, Const 10. Function 1: Case 0, IfZero, Var 1, Leaf,
/// Var 0, Leaf, Var 1, Let, Add, Var 0, Const 1, Node, Call 1 on 1, Var 1,
/// Call 1 on 2, Var 1.
fn fill() -> Vec<Function> {
    let call = |tree, number| Expr::call(tree, 1, vec![number]);
    let leaf = Expr::if_zero(var(1), Expr::leaf(var(0)), Expr::leaf(var(1)));
    let below = Expr::plus(var(0), Expr::constant(1));
    let node = Expr::node(call(1, var(1)), call(2, var(1)));
    vec![
        Function {
            tree_valued: true,
            parameters: 0,
            body: call(0, Expr::constant(10)),
        },
        Function {
            tree_valued: true,
            parameters: 1,
            body: Expr::case(0, leaf, Expr::let_in(below, node)),
        },
    ]
}
