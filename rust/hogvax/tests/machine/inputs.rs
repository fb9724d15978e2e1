//! Inputs cut at every byte, and what stands after the bytes read.

use std::collections::BTreeMap;

use reference::generate::{code, tag_like_bytes};
use reference::machine::opcode;
use reference::Random;

use super::cases::short;
use super::*;

fn with_input(case: &TestCase, input: &[u8]) -> TestCase {
    TestCase {
        input: input.to_vec(),
        ..case.clone()
    }
}

/// How many bytes after those read a run has looked at: at 16 the byte that
/// is no tag, at 15 up to four bytes or the end.
fn looked_at(gave: &Gave) -> usize {
    match gave.number {
        15 => 4,
        16 => 1,
        _ => 0,
    }
}

/// Without all bytes that it reads, a run gives 15 where a tag or label is not
/// whole; those after them change nothing.
#[test]
fn inputs_cut_at_every_byte() {
    let mut lent = Lent::new();
    let mut seen = [0; 4];
    for case in short(220, 1_000, 2_000) {
        let whole = lent.answer(&case);
        let rests_on = whole.read() + looked_at(&whole);
        for length in 0..=case.input.len() {
            let cut = with_input(&case, &case.input[..length]);
            let gave = lent.answer(&cut);
            assert!(gave.opens(&whole), "{cut:?}");
            if length < whole.read() {
                assert_eq!(gave.number, 15, "{cut:?}");
                seen[length - gave.read()] += 1;
            } else if length >= rests_on {
                assert_eq!(gave, whole, "{cut:?}");
            }
        }
    }
    println!("{seen:?}");
    assert!(seen.iter().all(|&count| count > 100), "{seen:?}");
}

/// Other bytes, or none, after these.
fn others(random: &mut Random, bytes: &[u8], most: usize) -> Vec<Vec<u8>> {
    let mut inputs = vec![bytes.to_vec()];
    for _ in 0..3 {
        let length = random.below(most + 1);
        let behind = match random.below(2) {
            0 => tag_like_bytes(random, length),
            _ => (0..length).map(|_| random.byte()).collect(),
        };
        inputs.push([bytes, &behind].concat());
    }
    inputs
}

/// Inputs that the run can't tell from its own: those that open with the bytes
/// read, at 16 with the byte that is no tag too. At 15 the end is looked at; if
/// a label isn't whole it doesn't matter what is there of it.
fn inputs_alike(random: &mut Random, case: &TestCase, gave: &Gave, trace: &Trace) -> Vec<Vec<u8>> {
    let read = &case.input[..gave.read()];
    match (gave.number, trace.stop.mark.opcode) {
        (15, Some(opcode::READ_NUMBER)) => others(random, read, 3),
        (15, _) => others(random, read, 0),
        _ => others(random, &case.input[..gave.read() + looked_at(gave)], 20),
    }
}

#[test]
fn what_stands_behind_the_bytes_read_does_not_matter() {
    let mut random = Random::new(221);
    let mut lent = Lent::new();
    let mut seen = BTreeMap::new();
    for _ in 0..6_000 {
        let case = code::any_case(&mut random);
        let (gave, trace) = lent.answer_traced(&case);
        for input in inputs_alike(&mut random, &case, &gave, &trace) {
            let other = with_input(&case, &input);
            assert_eq!(lent.call(&other), gave, "{other:?}");
            *seen.entry(gave.number).or_insert(0) += usize::from(input != case.input);
        }
    }
    println!("{seen:?}");
    let numbers = [0, 14, 15, 16, 17, 18, 19, 21];
    let enough = seen.values().all(|&count| count > 100);
    assert!(seen.keys().eq(&numbers) && enough, "{seen:?}");
}
