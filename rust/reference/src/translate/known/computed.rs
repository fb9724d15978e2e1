//! Programs at the limits, with their code.

use crate::machine::mnemonic::*;
use crate::machine::{assemble, Instruction};
use crate::program::{Expr, Function, Program};

/// What a program shows, the program, and its code.
type Laid = (&'static str, Program, Vec<u8>);

fn number(parameters: u8, body: Expr) -> Function {
    Function {
        tree_valued: false,
        parameters,
        body,
    }
}

fn one() -> Expr {
    Expr::constant(1)
}

/// So many times: add 1.
fn plus_ones(count: usize, number: Expr) -> Expr {
    (0..count).fold(number, |sum, _| Expr::plus(sum, one()))
}

fn added_ones(count: usize) -> Vec<Instruction> {
    [push(1), add()].repeat(count)
}

/// Function 0 calls function 31, which is Sum; the others, which none calls,
/// have two instructions each, so that function 31 begins at 62.
pub fn function_31() -> Laid {
    let call_on = |tree, b| Expr::call(tree, b, vec![]);
    let sum = Expr::case(0, Expr::var(0), Expr::plus(call_on(1, 31), call_on(2, 31)));
    let mut functions = vec![number(0, call_on(0, 31))];
    functions.extend((1..31).map(|b| number(0, call_on(0, b))));
    functions.push(number(0, sum));
    let mut code = vec![call(62, 0), ret(1)];
    code.extend((1..31).flat_map(|b| [call(2 * b, 0), ret(1)]));
    code.extend([read_tag(67), read_number(), get(0), slide(), jump(70)]);
    code.extend([call(62, 0), call(62, 0), add(), ret(1)]);
    ("function 31", Program::new(functions), assemble(&code))
}

/// 32 functions of 32 nodes. Each calls the next with its number and 15
/// more, 33 instructions; the last is a sum over the leaves.
pub fn most_nodes() -> Laid {
    let step = |b: u16, first| {
        let argument = plus_ones(15, first);
        Expr::call(0, b + 1, vec![argument])
    };
    let mut functions = vec![number(0, step(0, one()))];
    functions.extend((1..31).map(|b| number(1, step(b, Expr::var(0)))));
    functions.push(number(1, last_of_32()));
    let mut code = Vec::new();
    for b in 0..31 {
        code.push(if b == 0 { push(1) } else { get(0) });
        code.extend(added_ones(15));
        code.extend([call(33 * (b + 1), 1), ret(1)]);
    }
    code.extend([read_tag(1_054), read_number(), get(0), ifnot(1_029)]);
    code.extend([push(1), jump(1_030), get(1)]);
    code.extend(added_ones(11));
    code.extend([slide(), jump(1_059), get(0), call(1_023, 1)]);
    code.extend([get(0), call(1_023, 1), add(), ret(1)]);
    ("1,024 nodes", Program::new(functions), assemble(&code))
}

/// 32 nodes: a leaf's label and 11 more, or 12 where the number is 0.
fn last_of_32() -> Expr {
    let label = Expr::if_zero(Expr::var(0), one(), Expr::var(1));
    let on = |tree| Expr::call(tree, 31, vec![Expr::var(0)]);
    Expr::case(0, plus_ones(11, label), Expr::plus(on(1), on(2)))
}

/// 1,024 nodes in 31 functions with two instructions for each node, 2,048 in
/// all: Case, Const 1, Call of the next function on the right tree, with the
/// same for the left tree as its argument; and last Call 0.
pub fn longest_code() -> Laid {
    let cases = |b: usize| if b < 21 { 11 } else { 10 };
    let next = |b: usize| if b < 30 { b + 1 } else { 1 };
    let entry = |b: usize| (0..b).map(|b| 6 * cases(b) + 2).sum::<usize>() as u16;
    let body = |b| nested_cases(cases(b), 0, next(b) as u16);
    let functions = (0..31).map(|b| number((b > 0) as u8, body(b)));
    let program = Program::new(functions.collect());
    let code = (0..31).flat_map(|b| code_of_cases(cases(b) as u16, entry(b), entry(next(b))));
    (
        "the longest code",
        program,
        assemble(&code.collect::<Vec<_>>()),
    )
}

/// So many Cases below so many others.
fn nested_cases(count: usize, above: usize, next: u16) -> Expr {
    let head = (2 * above).saturating_sub(1) as u8;
    if count == above {
        return Expr::call(head, 0, vec![]);
    }
    let right = 2 * above as u8 + 2;
    let argument = nested_cases(count, above + 1, next);
    Expr::case(head, one(), Expr::call(right, next, vec![argument]))
}

/// Five instructions for each Case, the innermost call, a call for each Case
/// from the innermost on, and return.
fn code_of_cases(count: u16, entry: u16, next: u16) -> Vec<Instruction> {
    let innermost = entry + 5 * count;
    let end = innermost + 1 + count;
    let opening = |k: u16| {
        let node_part = entry + 5 * (k + 1);
        [
            read_tag(node_part),
            read_number(),
            push(1),
            slide(),
            jump(end - k),
        ]
    };
    let mut code: Vec<Instruction> = (0..count).flat_map(opening).collect();
    code.push(call(0, 0));
    code.extend(vec![call(next, 1); usize::from(count)]);
    code.push(ret(1));
    code
}
