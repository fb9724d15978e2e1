//! Records and files with damage: aimed at one refusal, in several rows at
//! once, and at random.

use reference::generate::{self, programs, FileDamage, RecordDamage};
use reference::{lay_out, Random, Refusal};

use super::*;

/// Records of programs small and large.
fn some_records(random: &mut Random, count: usize) -> Vec<Vec<u8>> {
    let sizes = [(1, 1), (2, 2), (32, 32), (1, 1_024), (32, 1_024), (5, 120)];
    let mut all: Vec<Vec<u8>> = sizes
        .iter()
        .map(|&(functions, nodes)| programs::program(random, functions, nodes).records())
        .collect();
    while all.len() < count {
        let functions = 1 + random.below(8);
        let nodes = functions + random.below(150);
        all.push(programs::program(random, functions, nodes).records());
    }
    all
}

// Aimed at one refusal

#[test]
fn each_damage_to_records_gives_its_refusal() {
    let mut random = Random::new(120);
    let mut both = Both::new();
    let programs = some_records(&mut random, 80);
    for damage in RecordDamage::ALL {
        let mut count = 0;
        for records in &programs {
            let Some((damaged, refusal)) = damage.apply(&mut random, records) else {
                continue;
            };
            both.pack.check_refused(&damaged, refusal);
            both.unpack.check_refused(&lay_out(&damaged), refusal);
            count += 1;
        }
        assert!(count >= 40, "{damage:?}: {count}");
    }
    for checked in [&both.pack, &both.unpack] {
        checked.assert_seen(&[4, 5, 6, 7], 200);
    }
}

#[test]
fn each_damage_to_a_file_gives_its_refusal() {
    let mut random = Random::new(121);
    let mut unpack = Checked::new(&UNPACK);
    let programs = some_records(&mut random, 80);
    for damage in FileDamage::ALL {
        let mut count = 0;
        for records in &programs {
            let Some((damaged, refusal)) = damage.apply(&mut random, &lay_out(records)) else {
                continue;
            };
            unpack.check_refused(&damaged, refusal);
            count += 1;
        }
        assert!(count >= 30, "{damage:?}: {count}");
    }
    unpack.assert_seen(&[1, 2, 3, 4], 70);
}

// Several rows at once

/// One of the kinds of damage that are refused with this number.
fn to_records(random: &mut Random, number: u8, records: &[u8]) -> Option<(Vec<u8>, Refusal)> {
    let mut kinds = RecordDamage::ALL.to_vec();
    kinds.retain(|damage| damage.number() == number);
    random.pick(&kinds).apply(random, records)
}

/// One of the kinds of damage that are refused with this number.
fn to_file(random: &mut Random, number: u8, file: &[u8]) -> Option<(Vec<u8>, Refusal)> {
    let mut kinds = FileDamage::ALL.to_vec();
    kinds.retain(|damage| damage.number() == number);
    random.pick(&kinds).apply(random, file)
}

/// Damage to later rows first: at each turn an earlier row is damaged too,
/// and its refusal is reported.
#[test]
fn of_damages_to_many_rows_the_first_is_told() {
    let mut random = Random::new(122);
    let mut both = Both::new();
    for _ in 0..5 {
        for mut records in some_records(&mut random, 40) {
            let mut numbers = vec![7, 6, 5, 4];
            numbers.retain(|_| random.below(4) > 0);
            for number in numbers {
                if let Some((damaged, refusal)) = to_records(&mut random, number, &records) {
                    both.pack.check_refused(&damaged, refusal);
                    both.unpack.check_refused(&lay_out(&damaged), refusal);
                    records = damaged;
                }
            }
            let mut file = lay_out(&records);
            for number in [random.pick(&[2, 3]), 1] {
                if let Some((damaged, refusal)) = to_file(&mut random, number, &file) {
                    both.unpack.check_refused(&damaged, refusal);
                    file = damaged;
                }
            }
        }
    }
    both.pack.assert_seen(&[4, 5, 6, 7], 50);
    both.unpack.assert_seen(&[1, 2, 3, 4, 5, 6, 7], 50);
}

/// Each pair of kinds of damage in different rows.
#[test]
fn of_any_two_damages_the_earlier_row_is_told() {
    let mut random = Random::new(123);
    let mut both = Both::new();
    for (functions, nodes) in [(2, 40), (6, 130)] {
        let records = programs::program(&mut random, functions, nodes).records();
        for later in RecordDamage::ALL {
            let Some((damaged, _)) = later.apply(&mut random, &records) else {
                continue;
            };
            for earlier in RecordDamage::ALL {
                if earlier.number() >= later.number() {
                    continue;
                }
                if let Some((damaged, refusal)) = earlier.apply(&mut random, &damaged) {
                    both.pack.check_refused(&damaged, refusal);
                    both.unpack.check_refused(&lay_out(&damaged), refusal);
                }
            }
            for earlier in FileDamage::ALL {
                if earlier.number() > 3 {
                    continue;
                }
                if let Some((damaged, refusal)) = earlier.apply(&mut random, &lay_out(&damaged)) {
                    both.unpack.check_refused(&damaged, refusal);
                }
            }
        }
    }
    both.pack.assert_seen(&[4, 5, 6], 10);
    both.unpack.assert_seen(&[1, 2, 3, 4, 5, 6], 10);
}

/// The two block tests go together: of a wrong field and a wrong check in
/// different blocks the first block's is reported, in one block the check.
#[test]
fn block_tests_go_together_block_by_block() {
    let mut random = Random::new(124);
    let mut unpack = Checked::new(&UNPACK);
    let records = programs::program_of_records(&mut random, 300).records();
    let file = lay_out(&records);
    for damage in [
        FileDamage::BlockNumber,
        FileDamage::RecordsUsed,
        FileDamage::NumberOfBlocks,
        FileDamage::UnusedRecord,
    ] {
        for _ in 0..40 {
            let (damaged, three) = damage.apply(&mut random, &file).unwrap();
            for _ in 0..5 {
                let (damaged, two) = FileDamage::Check.apply(&mut random, &damaged).unwrap();
                let first = if two.position <= three.position {
                    two
                } else {
                    three
                };
                unpack.check_refused(&damaged, first);
            }
        }
    }
    unpack.assert_seen(&[2, 3], 100);
}

// At random

#[test]
fn damaged_files_are_answered_as_the_reference_does() {
    let mut random = Random::new(125);
    let mut unpack = Checked::new(&UNPACK);
    for records in some_records(&mut random, 250) {
        let file = lay_out(&records);
        for _ in 0..20 {
            let damaged = generate::damaged_file(&mut random, &file);
            unpack.check(&damaged);
            if !damaged.is_empty() {
                let mend = random.below(4) > 0;
                unpack.check(&generate::changed_file(&mut random, &damaged, mend));
            }
        }
    }
    unpack.assert_all_seen(50);
}

#[test]
fn damaged_records_are_answered_as_the_reference_does() {
    let mut random = Random::new(126);
    let mut pack = Checked::new(&PACK);
    for records in some_records(&mut random, 250) {
        for _ in 0..20 {
            pack.check(&generate::damaged_records(&mut random, &records));
        }
    }
    pack.assert_all_seen(100);
}

/// Nodes drawn at random, in prefix form or not.
#[test]
fn loose_nodes_are_answered_as_the_reference_does() {
    let mut random = Random::new(127);
    let mut both = Both::new();
    for _ in 0..4_000 {
        let functions = 1 + random.below(4);
        let nodes = functions + random.below(8);
        let records = programs::loose_records(&mut random, functions, nodes);
        both.pack.check(&records);
        both.unpack.check(&lay_out(&records));
    }
    for checked in [&both.pack, &both.unpack] {
        checked.assert_seen(&[0, 7, 13], 100);
    }
}

/// Blocks of any bytes, with right checks and then right fields as well.
#[test]
fn blocks_of_any_bytes_are_answered_as_the_reference_does() {
    let mut random = Random::new(128);
    let mut unpack = Checked::new(&UNPACK);
    for _ in 0..300 {
        let blocks = 1 + random.below(3);
        let mut file: Vec<u8> = (0..512 * blocks).map(|_| random.byte()).collect();
        unpack.check(&file);
        reference::mend_checks(&mut file);
        unpack.check(&file);
        let mut records: Vec<u8> = (0..504 * blocks).map(|_| random.byte()).collect();
        unpack.check(&lay_out(&records));
        records[..8].copy_from_slice(&[1, 1, 0, 0, 0, 0, 0, 0]);
        let nodes = 63 * blocks as u16 - 2;
        records[2..4].copy_from_slice(&nodes.to_le_bytes());
        unpack.check(&lay_out(&records));
        records[8..16].copy_from_slice(&[1, 0, 0, 0, 0, 0, 0, 0]);
        records[10..12].copy_from_slice(&nodes.to_le_bytes());
        unpack.check(&lay_out(&records));
    }
    unpack.assert_seen(&[2, 3, 4, 5, 6], 250);
}
