use std::collections::BTreeMap;

use super::*;
use crate::evaluate::{evaluate, Evaluation};
use crate::machine::FILLER;
use crate::order::{pass_one, walk, WORD_LIMIT};
use crate::program::kind;
use crate::source::explicit_stack::Records;

/// Any program of the generated runs.
fn any_program(random: &mut Random) -> Program {
    any_program_and_tree(random).0
}

const MAKERS: [fn(&mut Random) -> Program; 5] =
    [any_program, descending, unordered, many_names, crowded];

#[test]
fn programs_pass_pass_one() {
    let mut random = Random::new(321);
    for make in MAKERS {
        for _ in 0..200 {
            let program = make(&mut random);
            let records = program.records();
            assert_eq!(Program::from_records(&records), Ok(program.clone()));
            assert_eq!(pass_one::check(&program), Ok(()), "{:?}", program.functions);
        }
    }
}

#[test]
fn programs_are_in_order_and_out_of_order() {
    let mut random = Random::new(322);
    let mut seen = BTreeMap::new();
    for _ in 0..600 {
        let program = any_program(&mut random);
        let number = walk::check(&program).map_err(|found| found.fault.number());
        *seen.entry(number).or_insert(0) += 1;
    }
    assert!(seen[&Ok(())] > 150 && seen[&Err(11)] > 250, "{seen:?}");
}

/// Every kind with either result, Calls in arguments, 16 words, and more tree
/// names than a byte can tell.
#[test]
fn programs_are_various() {
    let mut random = Random::new(323);
    let mut kinds = BTreeMap::new();
    let mut words_reached = BTreeMap::new();
    let (mut many, mut in_arguments, mut functions) = (0, 0, 0);
    for _ in 0..600 {
        let program = any_program(&mut random);
        functions = functions.max(program.functions.len());
        for function in &program.functions {
            let contexts = pass_one::contexts(function);
            let words = contexts.iter().map(|(_, context)| context.words);
            *words_reached.entry(words.max()).or_insert(0) += 1;
            let trees = contexts.iter().map(|(_, context)| context.trees);
            many += usize::from(trees.max() > Some(256));
            for (expr, context) in contexts {
                let record = expr.record();
                let kind = (record.kind, context.tree, expr.parts().len());
                *kinds.entry(kind).or_insert(0) += 1;
                let parts = expr.parts();
                let kinds = parts.iter().map(|part| part.record().kind);
                let calls = kinds.filter(|&kind| kind == kind::CALL).count();
                in_arguments += usize::from(record.kind == kind::CALL && calls > 1);
            }
        }
    }
    assert_eq!(functions, 32);
    // Const, Var and Add are numbers, Leaf and Node trees; a Call has 0 to 4
    // arguments.
    assert_eq!(kinds.len(), 3 + 2 + 2 * 3 + 2 * 5);
    assert!(kinds.values().all(|&count| count >= 50), "{kinds:?}");
    let full = [WORD_LIMIT - 1, WORD_LIMIT].map(|words| words_reached[&Some(words)]);
    let counts = [full[0], full[1], many, in_arguments];
    assert!(counts.iter().all(|&count| count >= 20), "{counts:?}");
}

#[test]
fn descending_programs_do_not_go_on_for_ever() {
    let mut random = Random::new(324);
    let (mut ended, mut broken) = (0, 0);
    for _ in 0..300 {
        let program = descending(&mut random);
        let tree = small_tree(&mut random);
        match evaluate(&program, &tree, OPEN_LIMIT, 200_000) {
            Evaluation::Ended(_) => ended += 1,
            Evaluation::TooLong => {}
            Evaluation::SumOutOfRange { .. } => broken += 1,
            Evaluation::TooManyOpen { .. } => panic!("{:?} on {tree:?}", program.functions),
        }
    }
    println!("{ended} {broken}");
    assert!(ended >= 150 && broken >= 10, "{ended} {broken}");
}

/// Whether the run is refused 21 with fuel for an expression more.
fn one_more_gives_21(case: &SourceCase) -> bool {
    let more = SourceCase {
        fuel: case.fuel.saturating_add(1),
        ..case.clone()
    };
    let (sourced, _) = more.perform();
    sourced.refused.is_some_and(|refusal| refusal.number == 21)
}

/// Every number that a source run can answer, and runs that end; 14 also where
/// one more expression leads to 21. A run that is refused leaves the output
/// untouched and gives 0 tips and depth; one that is refused before its first
/// expression answers 0 in every count.
#[test]
fn runs_answer_every_number() {
    let mut random = Random::new(325);
    let mut seen = BTreeMap::new();
    let mut just_before_21 = 0;
    for _ in 0..4_000 {
        let case = any_source(&mut random);
        let (sourced, output) = case.perform();
        let number = sourced.refused.map(|refusal| refusal.number);
        *seen.entry(number).or_insert(0) += 1;
        assert!(sourced.begun <= case.fuel.min(MODERATE), "{case:?}");
        assert!(output[sourced.written..].iter().all(|&byte| byte == FILLER));
        if number.is_some() {
            assert_eq!((sourced.written, sourced.number), (0, 0), "{case:?}");
            assert_eq!((sourced.tips, sourced.depth), (0, 0), "{case:?}");
        }
        if !matches!(number, None | Some(14 | 17 | 18 | 21)) {
            assert_eq!(sourced.begun, 0, "{case:?}");
        }
        just_before_21 += usize::from(number == Some(14) && one_more_gives_21(&case));
    }
    let others = [11, 12, 19];
    let numbers = (1..=21).filter(|number| !others.contains(number));
    let all: Vec<Option<u8>> = [None].into_iter().chain(numbers.map(Some)).collect();
    assert_eq!(seen.keys().copied().collect::<Vec<_>>(), all, "{seen:?}");
    println!("{seen:?}");
    let often = [None, Some(14), Some(17), Some(18), Some(21)];
    assert!(often.iter().all(|number| seen[number] >= 100), "{seen:?}");
    println!("{just_before_21} just before 21");
    assert!(just_before_21 >= 10, "{just_before_21}");
}

/// What the expressions begun come to: every kind, both parts of IfZero and
/// Case, tree names up to 255, up to 1,024 open calls, sums that are just the
/// least and just the greatest number, and sums that are out of range.
#[test]
fn runs_come_to_everything() {
    let mut random = Random::new(326);
    let mut kinds = BTreeMap::new();
    let (mut great_names, mut most_open) = (0, 0);
    let mut sums = [0; 3];
    for _ in 0..1_500 {
        let (program, tree) = any_program_and_tree(&mut random);
        if tree.depth() > DEPTH_LIMIT {
            continue;
        }
        let tokens = tree.tokens();
        let records = Records::new(&program.records());
        let outcome = records.evaluate(&tokens, 3_000, OPEN_LIMIT);
        for kind in outcome.begun_kinds {
            *kinds.entry(kind).or_insert(0) += 1;
        }
        great_names += usize::from(outcome.greatest_name >= 200);
        most_open += usize::from(outcome.open >= 900);
        sums[0] += usize::from(outcome.end_sums.least > 0);
        sums[1] += usize::from(outcome.end_sums.greatest > 0);
        let number = outcome.refused.map(|refusal| refusal.number);
        sums[2] += usize::from(number == Some(21));
    }
    assert_eq!(kinds.len(), 7 + 2 + 2, "{kinds:?}");
    assert!(kinds.values().all(|&count| count >= 1_000), "{kinds:?}");
    assert!(great_names >= 10, "{great_names}");
    assert!(most_open >= 10, "{most_open}");
    println!("{sums:?}");
    assert!(sums.iter().all(|&count| count >= 30), "{sums:?}");
}

#[test]
fn equal_seeds_give_equal_runs() {
    let some = |seed| {
        let mut random = Random::new(seed);
        let runs = (0..5).map(|_| any_source(&mut random));
        runs.collect::<Vec<SourceCase>>()
    };
    assert_eq!(some(327), some(327));
    assert_ne!(some(327), some(328));
}
