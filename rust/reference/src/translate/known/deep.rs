//! Expressions as deep as 1,024 nodes allow, with their code.

use crate::machine::mnemonic::*;
use crate::machine::{assemble, Instruction};
use crate::program::{Expr, Function, Program};

/// What a program shows, the program, and its code.
type Laid = (&'static str, Program, Vec<u8>);

/// One function.
fn laid(name: &'static str, tree_valued: bool, body: Expr, code: &[Instruction]) -> Laid {
    let function = Function {
        tree_valued,
        parameters: 0,
        body,
    };
    (name, Program::new(vec![function]), assemble(code))
}

/// So many expressions, each a part of the next, around Call 0 on 0.
fn nested(count: usize, around: impl Fn(Expr) -> Expr) -> Expr {
    let innermost = Expr::call(0, 0, vec![]);
    (0..count).fold(innermost, |expr, _| around(expr))
}

fn one() -> Expr {
    Expr::constant(1)
}

fn leaf() -> Expr {
    Expr::leaf(one())
}

const LEAF: [fn() -> Instruction; 3] = [leaf_tag, || push(1), write_number];

fn leaf_code() -> Vec<Instruction> {
    LEAF.map(|instruction| instruction()).to_vec()
}

pub fn programs() -> Vec<Laid> {
    let adds = [vec![call(0, 0)], [push(1), add()].repeat(511), vec![ret(1)]].concat();
    let lets = [
        vec![call(0, 0)],
        [push(1), slide()].repeat(511),
        vec![ret(1)],
    ]
    .concat();
    let left = [
        vec![node_tag(); 341],
        vec![call(0, 0)],
        leaf_code().repeat(341),
    ];
    let right = [&[node_tag()], &leaf_code()[..]].concat().repeat(341);
    let left = [&left.concat()[..], &[ret(0)]].concat();
    let right = [&right[..], &[call(0, 0), ret(0)]].concat();
    let bodies = [
        nested(511, |expr| Expr::plus(expr, one())),
        nested(511, |expr| Expr::let_in(expr, one())),
        nested(341, |expr| Expr::node(expr, leaf())),
        nested(341, |expr| Expr::node(leaf(), expr)),
    ];
    let [sum, number, to_the_left, to_the_right] = bodies;
    vec![
        laid("511 Adds to the left", false, sum, &adds),
        laid("511 Lets in their numbers", false, number, &lets),
        laid("341 Nodes to the left", true, to_the_left, &left),
        laid("341 Nodes to the right", true, to_the_right, &right),
        tests(),
        zero_parts(),
        other_parts(),
        fifteen_words(),
        sixteen_words(),
    ]
}

/// 341 IfZeros, each the test of the next.
fn tests() -> Laid {
    let body = nested(341, |expr| Expr::if_zero(expr, one(), one()));
    let level = |k: u16| [ifnot(4 * k + 4), push(1), jump(4 * k + 5), push(1)];
    let levels: Vec<Instruction> = (0..341).flat_map(level).collect();
    let code = [&[call(0, 0)], &levels[..], &[ret(1)]].concat();
    laid("341 IfZeros in their tests", false, body, &code)
}

/// 341 IfZeros, each the zero part of the next. The innermost Call stands at
/// 682, and after it jump and Call for each, from the innermost on.
fn zero_parts() -> Laid {
    let body = nested(341, |expr| {
        Expr::if_zero(one(), expr, Expr::call(0, 0, vec![]))
    });
    let opening = (0..341).flat_map(|k: u16| [push(1), ifnot(684 + 2 * (340 - k))]);
    let closing = (0..341).flat_map(|k: u16| [jump(685 + 2 * k), call(0, 0)]);
    let mut code: Vec<Instruction> = opening.collect();
    code.push(call(0, 0));
    code.extend(closing);
    code.push(ret(1));
    laid("341 IfZeros in their zero parts", false, body, &code)
}

/// 341 IfZeros, each the other part of the next. The return stands at 1,365.
fn other_parts() -> Laid {
    let body = nested(341, |expr| {
        Expr::if_zero(one(), Expr::call(0, 0, vec![]), expr)
    });
    let level = |k: u16| [push(1), ifnot(4 * k + 4), call(0, 0), jump(1_365)];
    let mut code: Vec<Instruction> = (0..341).flat_map(level).collect();
    code.extend([call(0, 0), ret(1)]);
    laid("341 IfZeros in their other parts", false, body, &code)
}

/// 15 names, and a 16th word for the last of them.
fn fifteen_words() -> Laid {
    let innermost = Expr::plus(Expr::call(0, 0, vec![]), Expr::var(13));
    let body = (0..14).fold(innermost, |body, k| Expr::let_in(Expr::constant(k), body));
    let mut code: Vec<Instruction> = (0..14).rev().map(push).collect();
    code.extend([call(0, 0), get(13), add()]);
    code.extend([slide(); 14]);
    code.push(ret(1));
    laid("14 names and two words", false, body, &code)
}

/// 16 names, and a call that gives no word.
fn sixteen_words() -> Laid {
    let body = nested(16, |body| Expr::let_in(one(), body));
    let mut code = vec![push(1); 16];
    code.push(call(0, 0));
    code.extend([drop_word(); 16]);
    code.push(ret(0));
    laid("16 names", true, body, &code)
}
