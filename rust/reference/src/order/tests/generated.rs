//! Generated programs, right and damaged.

use std::collections::BTreeMap;

use super::*;
use crate::generate::{changed_program, order_damage, ordered};

fn some_programs(seed: u64, count: usize) -> Vec<Program> {
    let mut random = Random::new(seed);
    (0..count)
        .map(|_| ordered::any_program(&mut random))
        .collect()
}

#[test]
fn ordered_programs_pass() {
    for program in some_programs(91, 300) {
        assert_eq!(answer(&program), Ok(()), "{:?}", program.functions);
    }
}

/// Every kind and number of arguments, many functions, and many words.
#[test]
fn ordered_programs_are_various() {
    let mut kinds = BTreeMap::new();
    let (mut functions, mut nodes, mut words, mut trees) = (0, 0, 0, 0);
    for program in some_programs(92, 300) {
        functions = functions.max(program.functions.len());
        nodes = nodes.max(program.nodes());
        for function in &program.functions {
            for (expr, context) in pass_one::contexts(function) {
                let kind = (expr.record().kind, context.tree, expr.parts().len());
                *kinds.entry(kind).or_insert(0) += 1;
                words = words.max(context.words);
                trees = trees.max(context.trees);
            }
        }
    }
    assert_eq!(functions, 32);
    assert!(
        nodes > 800 && words >= 12 && trees > 20,
        "{nodes} {words} {trees}"
    );
    // Const, Var and Add are numbers, Leaf and Node trees; a Call has 0 to 4
    // arguments.
    assert_eq!(kinds.len(), 3 + 2 + 2 * 3 + 2 * 5);
    assert!(kinds.values().all(|&count| count >= 20), "{kinds:?}");
}

#[test]
fn each_damage_gives_its_fault() {
    let mut random = Random::new(93);
    let programs = some_programs(94, 60);
    for fault in Fault::ALL {
        let mut count = 0;
        for program in &programs {
            if let Some((damaged, found)) = order_damage::apply(fault, &mut random, program) {
                assert_eq!(found.fault, fault);
                assert_eq!(answer(&damaged), Err(found), "{:?}", damaged.functions);
                count += 1;
            }
        }
        assert!(count >= 20, "{fault:?}: {count}");
    }
}

#[test]
fn both_ways_agree_on_changed_programs() {
    let mut random = Random::new(95);
    let mut seen = BTreeMap::new();
    for program in some_programs(96, 200) {
        for _ in 0..5 {
            let changed = changed_program(&mut random, &program);
            let fault = answer(&changed).map_err(|found| found.fault);
            *seen.entry(fault).or_insert(0) += 1;
        }
    }
    assert!(seen[&Ok(())] > 100);
    // Changes hardly ever come to 16 words or 16 pending trees.
    let often = |fault: &&Fault| ![10, 12].contains(&fault.number());
    for fault in Fault::ALL.iter().filter(often) {
        assert!(seen.contains_key(&Err(*fault)), "{fault:?}: {seen:?}");
    }
}

#[test]
fn equal_seeds_give_equal_programs() {
    assert_eq!(some_programs(97, 3), some_programs(97, 3));
    assert_ne!(some_programs(97, 3), some_programs(98, 3));
}
