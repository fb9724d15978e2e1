use super::*;
use crate::evaluate::{evaluate, Evaluation};
use crate::order::check_program;

#[test]
fn programs_pass_both_passes() {
    let mut random = Random::new(301);
    for make in [any_program, descending, partly_descending] {
        for _ in 0..200 {
            let program = make(&mut random);
            assert_eq!(check_program(&program), Ok(()), "{:?}", program.functions);
        }
    }
}

/// They end, or break off at a sum.
#[test]
fn descending_programs_end() {
    let mut random = Random::new(302);
    let (mut ended, mut broken) = (0, 0);
    for _ in 0..300 {
        let program = descending(&mut random);
        let tree = small_tree(&mut random);
        match evaluate(&program, &tree, 1_024, 1_000_000) {
            Evaluation::Ended(end) => {
                assert!(end.open <= tree.depth() + 1);
                ended += 1;
            }
            Evaluation::SumOutOfRange { .. } => broken += 1,
            _ => panic!("{:?} on {tree:?}", program.functions),
        }
    }
    println!("{ended} {broken}");
    assert!(ended >= 100 && broken >= 20, "{ended} {broken}");
}

/// Of the others some end, some break off at a sum, and some go on.
#[test]
fn others_end_or_go_on() {
    let mut random = Random::new(303);
    let (mut ended, mut too_many, mut broken) = (0, 0, 0);
    for _ in 0..600 {
        let program = partly_descending(&mut random);
        let tree = small_tree(&mut random);
        match evaluate(&program, &tree, 1_024, 10_000_000) {
            Evaluation::Ended(_) => ended += 1,
            Evaluation::TooManyOpen { .. } => too_many += 1,
            Evaluation::TooLong => panic!("{:?} on {tree:?}", program.functions),
            Evaluation::SumOutOfRange { .. } => broken += 1,
        }
    }
    let seen = [ended, too_many, broken];
    println!("{seen:?}");
    assert!(ended > 100 && too_many > 30 && broken > 15, "{seen:?}");
}

#[test]
fn equal_seeds_give_equal_programs_and_trees() {
    let some = |seed| {
        let mut random = Random::new(seed);
        let programs: Vec<Program> = (0..5).map(|_| any_program(&mut random)).collect();
        (
            programs,
            small_tree(&mut random),
            deep_tree(&mut random, 50),
        )
    };
    assert_eq!(some(304), some(304));
    assert_ne!(some(304), some(305));
}
