use std::collections::BTreeMap;

use super::*;
use crate::evaluate::{evaluate, Evaluation};
use crate::order::check_program;
use crate::source::explicit_stack::Records;
use crate::sum::exact_sum;

#[test]
fn fitting_and_leaving_pairs() {
    let mut random = Random::new(341);
    let mut seen: BTreeMap<i64, usize> = BTreeMap::new();
    for _ in 0..1_000 {
        let (left, right) = fitting(&mut random);
        assert!(exact_sum(left, right).is_some());
        *seen.entry(i64::from(left) + i64::from(right)).or_insert(0) += 1;
        let (left, right) = leaving(&mut random);
        assert_eq!(exact_sum(left, right), None);
        *seen.entry(i64::from(left) + i64::from(right)).or_insert(0) += 1;
    }
    let ends = [LEAST - 1, LEAST, GREATEST, GREATEST + 1];
    assert!(ends.iter().all(|end| seen[end] >= 100), "{seen:?}");
    assert!(seen.len() >= 200);
}

#[test]
fn every_total_of_two_numbers_is_split() {
    let mut random = Random::new(342);
    for total in [2 * LEAST, LEAST - 1, LEAST, -1, 0, GREATEST, 2 * GREATEST] {
        for _ in 0..100 {
            let (left, right) = split(&mut random, total);
            assert_eq!(i64::from(left) + i64::from(right), total);
        }
    }
}

/// Of the labels of the trees inside, from the left to the right.
fn totals(tree: &Tree) -> Vec<i64> {
    let tokens: Vec<Token> = tree.prefix().collect();
    let (mut totals, mut pending) = (Vec::new(), Vec::new());
    for token in tokens.iter().rev() {
        let total = match *token {
            Token::Leaf(label) => i64::from(label),
            Token::Node => pending.pop().unwrap_or(0) + pending.pop().unwrap_or(0),
        };
        pending.push(total);
        totals.push(total);
    }
    totals
}

#[test]
fn only_the_whole_tree_is_out_of_range() {
    let mut random = Random::new(343);
    for _ in 0..300 {
        let tips = 2 + random.below(50);
        let tree = tree(&mut random, tips);
        let total = total_out_of_range(&mut random);
        let mut totals = totals(&with_total(&mut random, &tree, total));
        assert_eq!(totals.pop(), Some(total));
        let in_range = |total: &i64| (LEAST..=GREATEST).contains(total);
        assert!(totals.iter().all(in_range), "{totals:?}");
    }
}

#[test]
fn moderate_labels() {
    let mut random = Random::new(344);
    let tree = tree(&mut random, 1_000);
    let totals = totals(&with_moderate_labels(&mut random, &tree));
    assert!(totals.iter().all(|total| total.abs() <= 1_000_000_000));
}

/// The programs are in order; they end or break off, and many of the sums are
/// at the ends of the range.
#[test]
fn programs_and_trees() {
    let mut random = Random::new(345);
    let mut seen = BTreeMap::new();
    for _ in 0..600 {
        let (program, tree) = program_and_tree(&mut random);
        assert_eq!(check_program(&program), Ok(()), "{:?}", program.functions);
        let case = match evaluate(&program, &tree, 1_024, 100_000) {
            Evaluation::Ended(_) => "ended",
            Evaluation::SumOutOfRange { .. } => "21",
            other => panic!("{other:?}: {:?}", program.functions),
        };
        let records = Records::new(&program.records());
        let ends = records.evaluate(&tree.tokens(), 100_000, 1_024).end_sums;
        *seen.entry(case).or_insert(0) += 1;
        *seen.entry("the least").or_insert(0) += usize::from(ends.least > 0);
        *seen.entry("the greatest").or_insert(0) += usize::from(ends.greatest > 0);
    }
    println!("{seen:?}");
    assert!(seen.values().all(|&count| count >= 100), "{seen:?}");
}

#[test]
fn equal_seeds_give_equal_programs_and_trees() {
    let some = |seed| {
        let mut random = Random::new(seed);
        (0..5)
            .map(|_| program_and_tree(&mut random))
            .collect::<Vec<_>>()
    };
    assert_eq!(some(346), some(346));
    assert_ne!(some(346), some(347));
}
