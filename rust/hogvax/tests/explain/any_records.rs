//! Whatever records and whatever refusal are given, there is an explanation.

use std::thread;

use super::*;

/// Bytes of any length, some of them with a right header.
fn any_bytes(random: &mut Random) -> Vec<u8> {
    let length = random.pick(&[0, 7, 8, 9, 16, 24, 80, 800, 8_456, 8_464]);
    let length = random.pick(&[length, random.clone().below(length + 1)]);
    let small = random.below(2) == 0;
    let byte = |random: &mut Random| match small {
        true => random.below(10) as u8,
        false => random.byte(),
    };
    let mut bytes: Vec<u8> = (0..length).map(|_| byte(random)).collect();
    if length.is_multiple_of(8) && length >= 24 && random.below(2) == 0 {
        let nodes = (length / 8 - 2) as u16;
        let [low, high] = nodes.to_le_bytes();
        bytes[..8].copy_from_slice(&[1, 1, low, high, 0, 0, 0, 0]);
        bytes[8..16].copy_from_slice(&[1, 0, low, high, 0, 0, 0, 0]);
    }
    bytes
}

fn any_refusal(random: &mut Random, records: &[u8]) -> Refused {
    let position = random.pick(&[0, 1, 2, records.len() / 8, usize::MAX]) as u64;
    let any = random.below(records.len() / 8 + 2) as u64;
    Refused {
        number: random.below(22) as u32,
        position: random.pick(&[position, any, any, any]),
    }
}

/// The number's own sentence.
fn general(number: u32) -> Explanation {
    let refused = Refused {
        number,
        position: 0,
    };
    explain(&[], refused)
}

/// A refusal that is not of these records has the general sentence of its
/// number; the record is the one given.
#[test]
fn any_records_and_any_refusal_have_an_explanation() {
    let mut random = Random::new(220);
    let (mut right, mut wrong) = (0, 0);
    for _ in 0..20_000 {
        let records = any_bytes(&mut random);
        let own = hogvax::check_records(&records).err();
        let any = any_refusal(&mut random, &records);
        let refused = random.pick(&[Some(any), own]).unwrap_or(any);
        let explanation = explain(&records, refused);
        assert_eq!(explanation.record as u64, refused.position);
        if Some(refused) == own {
            right += 1;
        } else {
            assert_eq!(explanation.message, general(refused.number).message);
            assert!(explanation.details.is_empty());
            wrong += 1;
        }
    }
    assert!(right >= 1_000 && wrong >= 1_000, "{right} {wrong}");
}

#[test]
fn a_refusal_of_another_program_has_the_general_sentence() {
    let mut random = Random::new(221);
    let mut seen = [0; 13];
    for checked in programs().iter().step_by(6) {
        let records = &checked.records;
        for number in 4..=12 {
            let position = random.below(records.len() / 8 + 2) as u64;
            let refused = Refused { number, position };
            if Some(refused) != checked.refused {
                let explanation = explain(records, refused);
                assert_eq!(explanation.message, general(number).message);
                seen[number as usize] += 1;
            }
        }
    }
    assert!(seen[4..].iter().all(|&count| count >= 500), "{seen:?}");
}

#[test]
fn each_number_has_a_sentence_of_its_own() {
    let mut sentences: Vec<String> = (4..=13).map(|number| general(number).message).collect();
    sentences.sort();
    sentences.dedup();
    assert_eq!(sentences.len(), 10);
    for number in [0, 1, 2, 3, 13, 20, 22, u32::MAX] {
        assert_eq!(general(number).message, "the program is refused");
    }
}

/// More records than a program may have, each inside the one before.
#[test]
fn many_records_are_no_deep_walk() {
    for nodes in [1_023_u16, 1_024, 1_025, 65_535] {
        let [low, high] = nodes.to_le_bytes();
        let mut records = vec![1, 1, low, high, 0, 0, 0, 0];
        records.extend([0, 0, low, high, 0, 0, 0, 0]);
        for kind in [2, 3, 4, 5, 6, 7] {
            let mut records = records.clone();
            for _ in 0..nodes {
                records.extend([kind, 0, 0, 0, 0, 0, 0, 0]);
            }
            let refused = hogvax::check_records(&records).unwrap_err();
            assert_eq!(refused.number, if nodes > 1_024 { 4 } else { 7 });
            let explanation = explained(&records, refused);
            assert!(explanation.details.len() <= 17, "{explanation:?}");
        }
    }
}

/// Expressions as deep as 1,024 nodes allow are no deep walk either.
#[test]
fn explanations_need_little_stack() {
    let refused = programs().iter().filter_map(|checked| {
        let refused = checked.refused?;
        Some((&checked.records, refused))
    });
    let explain_all = || {
        let mut deepest = 0;
        for (records, refused) in refused {
            explained(records, refused);
            deepest = deepest.max(records.len() / 8);
        }
        deepest
    };
    let thread = thread::Builder::new().stack_size(100_000);
    let deepest = thread::scope(|scope| {
        let thread = thread.spawn_scoped(scope, explain_all).unwrap();
        thread.join().unwrap()
    });
    assert!(deepest >= 1_024, "{deepest}");
}
