//! What the mix of all kinds reaches is what the tables list.

use std::collections::BTreeMap;
use std::fmt::Debug;

use super::*;
use crate::machine::opcode;

/// So many cases of the mix.
const CASES: usize = if cfg!(debug_assertions) {
    15_000
} else {
    200_000
};

#[test]
fn no_mark_is_listed_twice() {
    let mut marks = reachable();
    marks.sort();
    marks.dedup();
    assert_eq!(marks.len(), reachable().len());
    let mut pairs = hidden();
    pairs.sort();
    pairs.dedup();
    assert_eq!(pairs.len(), hidden().len());
}

#[test]
fn every_cause_is_reachable_but_13() {
    let marks = reachable();
    for cause in Cause::ALL {
        let listed = marks.iter().any(|mark| mark.cause == cause);
        assert_eq!(listed, cause != Cause::WorkTooShort, "{cause:?}");
    }
}

#[test]
fn each_refusal_is_hidden_behind_14_and_15_17_18_21_behind_19() {
    for number in [15, 16, 17, 18, 19, 21] {
        let told: Vec<u8> = hidden()
            .into_iter()
            .filter(|(_, mark)| mark.number() == Some(number))
            .map(|(told, _)| told)
            .collect();
        assert!(told.contains(&14), "{number}");
        assert_eq!(told.contains(&19), [15, 17, 18, 21].contains(&number));
    }
}

#[test]
fn the_mix_reaches_what_is_listed_and_nothing_else() {
    let mut random = Random::new(20);
    let mut marks = BTreeMap::new();
    let mut pairs = BTreeMap::new();
    let mut ends = [0; 2];
    for _ in 0..CASES {
        let (_, trace, _) = any_case(&mut random).perform_traced();
        ends[0] += usize::from(trace.end_sums.least > 0);
        ends[1] += usize::from(trace.end_sums.greatest > 0);
        let stop = trace.stop;
        *marks.entry(stop.mark).or_insert(0) += 1;
        if let (Some(told), Some(behind)) = (stop.mark.number(), stop.hidden) {
            *pairs.entry((told, behind)).or_insert(0) += 1;
        }
    }
    compare("marks", &marks, reachable());
    compare("pairs", &pairs, hidden());
    let sum = Mark::at(opcode::ADD, Cause::SumOutOfRange);
    let sums = [marks[&sum], pairs[&(14, sum)], pairs[&(19, sum)]];
    println!("sums out of range {sums:?}, at the ends {ends:?}");
    assert!(ends.iter().all(|&count| count >= CASES / 200), "{ends:?}");
    assert!(sums[0] >= CASES / 200, "{sums:?}");
}

/// Nothing is missing and nothing outside; the rarest is printed.
fn compare<T: Ord + Copy + Debug>(what: &str, seen: &BTreeMap<T, usize>, listed: Vec<T>) {
    let missing: Vec<&T> = listed
        .iter()
        .filter(|one| !seen.contains_key(one))
        .collect();
    let outside: Vec<&T> = seen.keys().filter(|one| !listed.contains(one)).collect();
    let rarest = seen.iter().min_by_key(|(_, &count)| count);
    println!("{what}: {} of {}, rarest {rarest:?}", seen.len(), CASES);
    assert!(missing.is_empty(), "{what} missing: {missing:?}");
    assert!(outside.is_empty(), "{what} outside: {outside:?}");
}

#[test]
fn an_aimed_case_stops_at_its_mark() {
    let mut random = Random::new(21);
    for mark in reachable() {
        for _ in 0..OF_A_KIND / 20 {
            let case = aimed(&mut random, mark);
            let (_, trace, _) = case.perform_traced();
            assert_eq!(trace.stop.mark, mark, "{case:?}");
        }
    }
}

#[test]
#[should_panic(expected = "no run stops at")]
fn no_case_is_aimed_at_13() {
    aimed(&mut Random::new(22), Mark::alone(Cause::WorkTooShort));
}

#[test]
#[should_panic(expected = "no run stops at")]
fn no_case_is_aimed_at_a_mark_that_is_not_listed() {
    aimed(&mut Random::new(23), Mark::at(0, Cause::InputEnded));
}
