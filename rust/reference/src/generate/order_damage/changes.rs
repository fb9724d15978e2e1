//! Changes at random, which leave a program in prefix form.

use crate::order::pass_one::{contexts, Context};
use crate::program::{Expr, Program, NODE_LIMIT};
use crate::random::Random;

use super::nothing;
use super::sites::put;

/// The program with one to three changes: another name, function, part or
/// result; parts exchanged; an expression put into a new one. It may still be
/// right, or the same.
pub fn changed_program(random: &mut Random, program: &Program) -> Program {
    let mut changed = program.clone();
    for _ in 0..random.pick(&[1, 1, 1, 2, 3]) {
        let next = change(random, &changed);
        if next.nodes() <= NODE_LIMIT {
            changed = next;
        }
    }
    changed
}

fn change(random: &mut Random, program: &Program) -> Program {
    let function = random.below(program.functions.len());
    if random.below(24) == 0 {
        let mut changed = program.clone();
        changed.functions[function].tree_valued ^= true;
        return changed;
    }
    let entered = contexts(&program.functions[function]);
    let node = random.below(entered.len());
    let (expr, context) = entered[node];
    let (other, _) = entered[random.below(entered.len())];
    let expr = match random.below(8) {
        0..=2 => renamed(random, expr, context),
        3 | 4 => exchanged(random, expr),
        5 => other_function(random, expr, program),
        6 => wrapped(random, expr, context),
        _ => random.pick(&[other, &nothing(context.tree)]).clone(),
    };
    put(program, function, node, &expr)
}

/// With another name, bound or nearly so, where there is one.
fn renamed(random: &mut Random, expr: &Expr, context: Context) -> Expr {
    let mut record = expr.record();
    let bound = match expr {
        Expr::Var(_) => context.numbers,
        Expr::Case(..) | Expr::Call(..) => context.trees,
        _ => return expr.clone(),
    };
    record.a = random.below(bound + 1).min(255) as u8;
    let parts = expr.parts().into_iter().cloned().collect();
    Expr::from_record(record, parts).expect("the same parts")
}

/// With two parts in each other's place.
fn exchanged(random: &mut Random, expr: &Expr) -> Expr {
    let mut parts: Vec<Expr> = expr.parts().into_iter().cloned().collect();
    if parts.len() > 1 {
        let first = random.below(parts.len() - 1);
        parts.swap(first, first + 1);
    }
    Expr::from_record(expr.record(), parts).expect("as many parts")
}

/// Where it is a Call, of another function with as many number parameters.
fn other_function(random: &mut Random, expr: &Expr, program: &Program) -> Expr {
    match expr {
        Expr::Call(a, b, arguments) => {
            let parameters = program.functions[usize::from(*b)].parameters;
            let functions: Vec<usize> = (0..program.functions.len())
                .filter(|&k| program.functions[k].parameters == parameters)
                .collect();
            Expr::call(*a, random.pick(&functions) as u16, arguments.clone())
        }
        _ => expr.clone(),
    }
}

/// As a part of a new expression.
fn wrapped(random: &mut Random, expr: &Expr, context: Context) -> Expr {
    let whole = expr.clone();
    let number = Expr::constant(1);
    match random.below(6) {
        0 => Expr::let_in(number, whole),
        1 => Expr::plus(whole, number),
        2 => Expr::plus(number, whole),
        3 => Expr::if_zero(number, whole, nothing(context.tree)),
        4 => Expr::leaf(whole),
        _ => Expr::case(
            random.below(context.trees).min(255) as u8,
            whole.clone(),
            whole,
        ),
    }
}
