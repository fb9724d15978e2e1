//! The rows before the two passes: block faults, records that are no
//! program's, and lengths.

use reference::generate::{self, ordered, FileDamage, RecordDamage};
use reference::order::known;
use reference::{kind, Random, Record};

use super::*;

/// Records of programs that pass, that pass one refuses and that pass two
/// refuses.
fn some_records(random: &mut Random) -> Vec<Vec<u8>> {
    let known = known::all().into_iter();
    let mut all: Vec<Vec<u8>> = known.map(|known| known.program.records()).collect();
    for functions in [1, 2, 5, 32] {
        all.push(ordered::program(random, functions, 100).records());
    }
    all
}

#[test]
fn earlier_rows_are_told_first() {
    let mut random = Random::new(170);
    let mut seen = [0; 13];
    for records in some_records(&mut random) {
        for damage in RecordDamage::ALL {
            if let Some((damaged, refusal)) = damage.apply(&mut random, &records) {
                assert_eq!(answer(&damaged), Err(told(refusal)), "{damage:?}");
                seen[usize::from(refusal.number)] += 1;
            }
        }
        for damage in FileDamage::ALL {
            if let Some((damaged, refusal)) = damage.apply(&mut random, &lay_out(&records)) {
                assert_eq!(CHECK.answer(&damaged), Err(told(refusal)), "{damage:?}");
                seen[usize::from(refusal.number)] += 1;
            }
        }
    }
    for (number, &count) in seen.iter().enumerate().take(8).skip(1) {
        assert!(count >= 20, "answer {number}: {count} times");
    }
}

const ADD: Record = node(kind::ADD);
const CONST: Record = node(kind::CONST);
const LEAF: Record = node(kind::LEAF);
const CALL: Record = node(kind::CALL);
const VAR: Record = node(kind::VAR);
const VAR_1: Record = Record { a: 1, ..VAR };
const WRONG: Record = node(9);

const fn node(kind: u8) -> Record {
    Record {
        kind,
        a: 0,
        b: 0,
        i: 0,
    }
}

/// Six nodes, of which the second function, which has one number parameter,
/// counts so many.
fn two_functions(second: u16, nodes: [Record; 6]) -> Vec<u8> {
    let function = |a, b| Record { a, b, ..CONST };
    let header = Record {
        kind: 1,
        a: 2,
        b: 6,
        i: 0,
    };
    let rows = [header, function(0, 3), function(1, second)];
    Record::bytes(&[&rows[..], &nodes].concat())
}

/// "A check row is finished for the whole file before the next begins": each
/// line mends the fault that the line before it reported.
#[test]
fn each_row_is_finished_before_the_next() {
    for (second, nodes, expected) in [
        (2, [LEAF, CONST, CONST, ADD, VAR, WRONG], refused(5, 2)),
        (3, [LEAF, CONST, CONST, ADD, VAR, WRONG], refused(6, 8)),
        (3, [LEAF, CONST, CONST, ADD, VAR, VAR_1], refused(7, 3)),
        (3, [ADD, CONST, CONST, ADD, VAR, VAR_1], refused(9, 8)),
        (3, [ADD, CONST, CONST, ADD, VAR, VAR], refused(11, 3)),
        (3, [ADD, CONST, CALL, ADD, VAR, VAR], refused(11, 6)),
        (3, [ADD, CONST, CALL, ADD, VAR, CALL], Ok(())),
    ] {
        assert_eq!(answer(&two_functions(second, nodes)), expected);
    }
}

#[test]
fn records_of_every_length() {
    let mut random = Random::new(171);
    let records = ordered::program(&mut random, 2, 20).records();
    let longer = [&records[..], &[0; 20]].concat();
    for length in 0..=longer.len() {
        let answer = CHECK_RECORDS.answer(&longer[..length]);
        let right = length == records.len();
        assert_eq!(answer, if right { Ok(()) } else { refused(4, 0) });
    }
}

#[test]
fn files_of_other_lengths() {
    let mut random = Random::new(172);
    for functions in [1, 32] {
        let records = ordered::program(&mut random, functions, 400).records();
        let file = lay_out(&records);
        let longer = [&file[..], &[0; 9_000]].concat();
        let blocks = (0..=longer.len()).step_by(512);
        for length in blocks.flat_map(|length| [length, length + 1, length + 511]) {
            let answer = CHECK.answer(&longer[..length.min(longer.len())]);
            assert_eq!(answer.is_ok(), length == file.len());
        }
    }
}

/// Every byte of a program's records changed in every way.
#[test]
fn every_change_of_one_byte() {
    let mut random = Random::new(173);
    let mut seen = [0; 13];
    let program = ordered::program(&mut random, 3, 24);
    let records = program.records();
    for place in 0..records.len() {
        for change in 1..=255 {
            let mut changed = records.clone();
            changed[place] ^= change;
            seen[number(answer(&changed))] += 1;
        }
    }
    for number in [0, 4, 5, 6, 7, 8, 9, 11] {
        assert!(seen[number] > 0, "answer {number}");
    }
}

#[test]
fn damaged_files_are_answered_as_the_reference_does() {
    let mut random = Random::new(174);
    let mut seen = [0; 13];
    for records in some_records(&mut random) {
        let file = lay_out(&records);
        for _ in 0..10 {
            let damaged = generate::damaged_file(&mut random, &file);
            seen[number(CHECK.answer(&damaged))] += 1;
            let damaged = generate::damaged_records(&mut random, &records);
            seen[number(CHECK_RECORDS.answer(&damaged))] += 1;
        }
    }
    for (number, &count) in seen.iter().enumerate() {
        assert!(count > 0, "answer {number}");
    }
}
