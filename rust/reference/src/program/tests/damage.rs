//! Generated programs, whole and damaged.

use std::collections::BTreeSet;

use super::*;
use crate::generate::{self, program_shapes, FileDamage, RecordDamage};

// Whole programs

#[test]
fn programs_have_the_size_asked_for() {
    let mut random = Random::new(70);
    for functions in 1..=32 {
        for nodes in [functions, functions + 1, functions + 7, 100] {
            let program = programs::program(&mut random, functions, nodes);
            assert_eq!(program.functions.len(), functions);
            assert_eq!(program.nodes(), nodes);
        }
    }
    for records in [3, 4, 5, 62, 63, 64, 1056, 1057] {
        let program = programs::program_of_records(&mut random, records);
        assert_eq!(program.records().len(), 8 * records);
        assert_accepted(&program.records(), &program);
    }
}

#[test]
fn every_kind_operand_and_result_comes_up() {
    let mut random = Random::new(71);
    let mut seen = BTreeSet::new();
    for _ in 0..60 {
        let program = programs::any_program(&mut random);
        for function in &program.functions {
            seen.insert(format!("result {}", function.tree_valued));
            seen.insert(format!("parameters {}", function.parameters));
            for expr in function.body.prefix() {
                let record = expr.record();
                seen.insert(format!("kind {} a {}", record.kind, record.a));
                seen.insert(format!("kind {} i {}", record.kind, record.i as i32));
                seen.insert(format!("kind {} b {}", record.kind, record.b));
                seen.insert(format!("kind {} parts {}", record.kind, expr.parts().len()));
            }
        }
    }
    for wanted in ["result true", "result false", "kind 8 b 0", "kind 8 b 31"] {
        assert!(seen.contains(wanted), "{wanted}");
    }
    for parameters in 0..=4 {
        assert!(seen.contains(&format!("parameters {parameters}")));
        assert!(seen.contains(&format!("kind 8 parts {parameters}")));
    }
    for kind in 0..9 {
        assert!(seen.contains(&format!("kind {kind} a 0")));
    }
    for kind in [1, 7, 8] {
        assert!(seen.contains(&format!("kind {kind} a 255")));
    }
    for i in [i32::MIN, -1, 0, 1, i32::MAX] {
        assert!(seen.contains(&format!("kind 0 i {i}")));
    }
}

#[test]
fn equal_seeds_give_equal_programs() {
    let one = programs::program(&mut Random::new(72), 5, 300);
    let two = programs::program(&mut Random::new(72), 5, 300);
    let other = programs::program(&mut Random::new(73), 5, 300);
    assert_eq!(one, two);
    assert_ne!(one, other);
}

#[test]
fn extremes() {
    let mut random = Random::new(74);
    let mut depth = 0;
    let mut blocks = BTreeSet::new();
    for program in program_shapes::extremes(&mut random) {
        let records = program.records();
        assert_accepted(&records, &program);
        blocks.insert((records.len() / 8).div_ceil(63));
        for function in &program.functions {
            depth = depth.max(function.body.depth());
        }
    }
    assert_eq!(depth, 1024);
    assert_eq!(blocks, (1..=17).collect());
}

#[test]
fn shapes() {
    let mut random = Random::new(75);
    let depth = |program: Program| program.functions[0].body.depth();
    assert_eq!(depth(program_shapes::chain(&mut random, 1000)), 1000);
    assert_eq!(depth(program_shapes::leaf_chain(&mut random, 1024)), 1024);
    assert_eq!(depth(program_shapes::left_comb(&mut random, 1001)), 501);
    assert_eq!(depth(program_shapes::right_comb(&mut random, 1001)), 501);
    assert_eq!(
        depth(program_shapes::wide_calls(&mut random, 1 + 4 + 16)),
        3
    );
    assert_eq!(depth(program_shapes::deep_calls(&mut random, 1001)), 251);
    for nodes in 1..40 {
        for make in [
            program_shapes::chain,
            program_shapes::left_comb,
            program_shapes::right_comb,
            program_shapes::wide_calls,
            program_shapes::deep_calls,
        ] {
            let program = make(&mut random, nodes);
            assert_eq!(program.functions[0].body.prefix().len(), nodes);
            assert_accepted(&program.records(), &program);
        }
    }
}

// Damage aimed at a refusal

/// Programs small and large.
fn some_programs(seed: u64, count: usize) -> Vec<Program> {
    let mut random = Random::new(seed);
    let mut programs: Vec<Program> = (0..count)
        .map(|_| {
            let functions = 1 + random.below(6);
            let nodes = functions + random.below(90);
            programs::program(&mut random, functions, nodes)
        })
        .collect();
    programs.push(programs::program(&mut random, 32, 1024));
    programs.push(programs::program_of_records(&mut random, 126));
    programs
}

#[test]
fn each_damage_to_records_gives_its_refusal() {
    let mut random = Random::new(76);
    let programs = some_programs(77, 30);
    for damage in RecordDamage::ALL {
        let mut count = 0;
        for program in &programs {
            let Some((records, refusal)) = damage.apply(&mut random, &program.records()) else {
                continue;
            };
            assert_eq!(refusal.number, damage.number());
            assert_records_refused(&records, refusal.number, refusal.position);
            count += 1;
        }
        assert!(count >= 10, "{damage:?}");
    }
}

#[test]
fn each_damage_to_a_file_gives_its_refusal() {
    let mut random = Random::new(78);
    let programs = some_programs(79, 30);
    for damage in FileDamage::ALL {
        let mut count = 0;
        for program in &programs {
            let file = write_file(&program.records()).unwrap();
            let Some((damaged, refusal)) = damage.apply(&mut random, &file) else {
                continue;
            };
            assert_eq!(refusal.number, damage.number());
            assert_file_refused(&damaged, refusal.number, refusal.position);
            count += 1;
        }
        assert!(count >= 5, "{damage:?}");
    }
}

/// Damage to a later row first, then to an earlier one, which is reported.
#[test]
fn of_two_damages_the_earlier_row_is_told() {
    let mut random = Random::new(80);
    for program in some_programs(81, 3) {
        let good = program.records();
        for later in RecordDamage::ALL {
            let Some((records, _)) = later.apply(&mut random, &good) else {
                continue;
            };
            for earlier in RecordDamage::ALL {
                if earlier.number() >= later.number() {
                    continue;
                }
                if let Some((records, refusal)) = earlier.apply(&mut random, &records) {
                    assert_eq!(write_file(&records), Err(refusal));
                    assert_eq!(read_file(&lay_out(&records)), Err(refusal));
                }
            }
            for earlier in FileDamage::ALL {
                if earlier.number() > 3 {
                    continue;
                }
                if let Some((file, refusal)) = earlier.apply(&mut random, &lay_out(&records)) {
                    assert_eq!(read_file(&file), Err(refusal));
                }
            }
        }
    }
}

// Damage at random

/// Whatever is accepted is the one file of its program, and the buffer is
/// tested last.
fn outcome(file: &[u8]) -> u8 {
    match read_file(file) {
        Ok(records) => {
            assert_eq!(write_file(&records).unwrap(), file);
            let program = Program::from_records(&records).unwrap();
            assert_eq!(program.records(), records);
            0
        }
        Err(refusal) => refusal.number,
    }
}

#[test]
fn files_damaged_at_random() {
    let mut random = Random::new(82);
    let mut seen = BTreeSet::new();
    for program in some_programs(83, 60) {
        let file = write_file(&program.records()).unwrap();
        for _ in 0..10 {
            seen.insert(outcome(&generate::damaged_file(&mut random, &file)));
        }
    }
    assert_eq!(seen, (0..=7).collect());
}

#[test]
fn records_damaged_at_random() {
    let mut random = Random::new(84);
    let mut seen = BTreeSet::new();
    for program in some_programs(85, 60) {
        let good = program.records();
        for _ in 0..10 {
            let records = generate::damaged_records(&mut random, &good);
            seen.insert(match write_file(&records) {
                Ok(file) => outcome(&file),
                Err(refusal) => refusal.number,
            });
        }
    }
    assert_eq!(seen, [0, 4, 5, 6, 7].into());
}
