use std::collections::BTreeMap;

use super::*;
use crate::machine::{Mark, TestCase, FILLER};
use crate::translate::translate;

/// Every number from 1 to 18, 21, and runs that end. A run refused before its
/// first instruction leaves both buffers untouched; any other has the code.
#[test]
fn runs_answer_every_number() {
    let mut random = Random::new(311);
    let mut seen = BTreeMap::new();
    let mut sums = [0; 3];
    for _ in 0..4_000 {
        let case = any_run(&mut random);
        let (ran, output, code) = case.perform();
        let number = ran.refusal.map(|refusal| refusal.number);
        *seen.entry(number).or_insert(0) += 1;
        let mut expected = vec![FILLER; case.code];
        if number.is_none_or(|number| number > 13) {
            let bytes = translate(&case.file).expect("a right file");
            expected[..bytes.len()].copy_from_slice(&bytes);
        } else {
            let counts = (ran.units, ran.read, ran.written, ran.number);
            assert_eq!(counts, (0, 0, 0, 0), "{case:?}");
        }
        assert_eq!(code, expected, "{case:?}");
        see_sums(&case, number, &mut sums);
        assert!(output[ran.written..].iter().all(|&byte| byte == FILLER));
    }
    // Changes hardly ever come to 16 words or 16 pending trees.
    println!("{seen:?}");
    let often = (1..=18).filter(|number| ![10, 12].contains(number));
    let often = often.chain([21]);
    let all: Vec<Option<u8>> = [None].into_iter().chain(often.map(Some)).collect();
    assert!(
        all.iter().all(|number| seen.contains_key(number)),
        "{seen:?}"
    );
    assert!(seen
        .keys()
        .all(|number| ![Some(19), Some(20)].contains(number)));
    assert!(seen[&Some(21)] >= 100, "{seen:?}");
    println!("{sums:?}");
    assert!(sums.iter().all(|&count| count >= 30), "{sums:?}");
}

/// Counts the runs of code with sums that are just the least number, with
/// sums that are just the greatest, and those cut by fuel just before 21.
fn see_sums(case: &RunCase, number: Option<u8>, sums: &mut [usize; 3]) {
    if number.is_some_and(|number| number <= 13) {
        return;
    }
    let stream = TestCase {
        code: translate(&case.file).expect("a right file"),
        input: case.input.clone(),
        fuel: case.fuel,
        output: case.output,
    };
    let (_, trace, _) = stream.perform_traced();
    sums[0] += usize::from(trace.end_sums.least > 0);
    sums[1] += usize::from(trace.end_sums.greatest > 0);
    let behind = trace.stop.hidden.and_then(Mark::number);
    sums[2] += usize::from(number == Some(14) && behind == Some(21));
}

#[test]
fn equal_seeds_give_equal_runs() {
    let some = |seed| {
        let mut random = Random::new(seed);
        let runs = (0..5).map(|_| any_run(&mut random));
        runs.collect::<Vec<RunCase>>()
    };
    assert_eq!(some(312), some(312));
    assert_ne!(some(312), some(313));
}
