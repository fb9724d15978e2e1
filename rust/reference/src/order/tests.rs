use super::*;
use crate::program::{lay_out, Expr, Function, NODE_LIMIT};
use crate::random::Random;

mod bodies;
mod generated;
mod rows;

/// The answers for a program, its records and its file are one. Where pass
/// one is passed, both ways to perform pass two agree.
fn answer(program: &Program) -> Result<(), Found> {
    let found = check_program(program);
    let refusal = found.map_err(Found::refusal);
    assert_eq!(check_records(&program.records()), refusal);
    assert_eq!(check(&lay_out(&program.records())), refusal);
    if pass_one::check(program).is_ok() {
        assert!(ways_agree(program), "{:?}", program.functions);
    }
    found
}

#[test]
fn known_programs() {
    for known in known::all() {
        let found = answer(&known.program).map_err(Found::refusal);
        assert_eq!(found, known.answer, "{}", known.name);
        assert!(known.program.nodes() <= NODE_LIMIT, "{}", known.name);
    }
}

#[test]
fn known_programs_reach_the_greatest_depth() {
    let programs = known::all().into_iter().map(|known| known.program);
    let bodies = programs.flat_map(|program| program.functions);
    assert_eq!(
        bodies.map(|function| function.body.depth()).max(),
        Some(1_024)
    );
}

#[test]
fn each_fault_is_listed_once_and_has_its_number() {
    let mut all = Fault::ALL.to_vec();
    all.sort();
    all.dedup();
    assert_eq!(all.len(), Fault::ALL.len());
    let of = |number| {
        Fault::ALL
            .iter()
            .filter(|fault| fault.number() == number)
            .count()
    };
    assert_eq!([8, 9, 10, 11, 12].map(of), [2, 3, 4, 7, 1]);
}

// Splits

fn single(body: Expr) -> Program {
    Program::new(vec![Function {
        tree_valued: false,
        parameters: 0,
        body,
    }])
}

/// So many Cases, each on the left tree of the one before; every part takes
/// all trees.
fn chain(count: usize) -> Program {
    fn takes(names: &[usize]) -> Expr {
        let calls = names.iter().map(|&name| Expr::call(name as u8, 0, vec![]));
        calls.reduce(Expr::plus).unwrap_or(Expr::constant(0))
    }
    fn part(count: usize, trees: usize, names: &[usize]) -> Expr {
        if count == 0 {
            return takes(names);
        }
        let rest = &names[1..];
        let inner = [&[trees, trees + 1], rest].concat();
        Expr::case(
            names[0] as u8,
            takes(rest),
            part(count - 1, trees + 2, &inner),
        )
    }
    single(part(count, 1, &[0]))
}

/// A chain of Cases is typable by Figure 6 at any length; the limit is of the
/// whole list.
#[test]
fn the_limit_is_of_the_whole_list() {
    for count in [1, 14, 15, 16, 17, 20] {
        let program = chain(count);
        assert!(splits::typable(&program, None));
        assert_eq!(splits::typable(&program, Some(16)), count <= 15);
        let answer = answer(&program).map_err(|found| found.fault);
        assert_eq!(
            answer,
            if count <= 15 {
                Ok(())
            } else {
                Err(Fault::PendingFull)
            }
        );
    }
}

/// The limit counts what is pending after an expression's own trees.
#[test]
fn the_limit_counts_the_trees_behind() {
    let call = |name| Expr::call(name, 0, vec![]);
    let inner = Expr::case(1, Expr::constant(0), Expr::plus(call(3), call(4)));
    let node = Expr::plus(inner, call(2));
    let program = single(Expr::case(0, Expr::constant(0), node));
    for (limit, typable) in [(1, false), (2, false), (3, true), (4, true)] {
        assert_eq!(splits::typable(&program, Some(limit)), typable);
    }
}
