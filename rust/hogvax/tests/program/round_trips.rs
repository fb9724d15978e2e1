//! Whole programs, packed and unpacked.

use reference::generate::{program_shapes, programs};
use reference::{kind, Program, Random, Record};

use super::*;

/// From 3 records, of one function and one node, to the most, 1,057: every
/// number up to three blocks, then those about a full block.
#[test]
fn programs_of_so_many_records() {
    let mut random = Random::new(100);
    let mut both = Both::new();
    let about_full = (4..=16).flat_map(|blocks| 63 * blocks - 2..63 * blocks + 3);
    for count in (3..=192).chain(about_full).chain(1_050..=1_057) {
        let program = programs::program_of_records(&mut random, count);
        let file = both.check_program(&program.records());
        assert_eq!(file.len(), 512 * count.div_ceil(63));
    }
    both.pack.assert_seen(&[0, 13], 263);
    both.unpack.assert_seen(&[0, 13], 263);
}

#[test]
fn programs_of_any_size() {
    let mut random = Random::new(101);
    let mut both = Both::new();
    for _ in 0..300 {
        let program = programs::any_program(&mut random);
        both.check_program(&program.records());
    }
    for functions in 1..=32 {
        for nodes in [functions, 2 * functions, 300] {
            let program = programs::program(&mut random, functions, nodes);
            both.check_program(&program.records());
        }
    }
}

/// The least and the most of everything, expressions as deep as they are
/// long, and every number of blocks with the last one full or nearly empty.
#[test]
fn programs_at_the_limits() {
    let mut both = Both::new();
    let mut longest = (0, 0);
    for seed in 102..104 {
        for program in program_shapes::extremes(&mut Random::new(seed)) {
            let records = program.records();
            let file = both.check_program(&records);
            longest = longest.max((records.len(), file.len()));
        }
    }
    assert_eq!(longest, (hogvax::LONGEST_RECORDS, hogvax::LONGEST_FILE));
}

#[test]
fn programs_beyond_the_limits() {
    let mut random = Random::new(105);
    let mut both = Both::new();
    for (functions, nodes) in [
        (33, 33),
        (33, 1_024),
        (1, 1_025),
        (32, 1_025),
        (34, 1_036),
        (255, 255),
    ] {
        let records = programs::program(&mut random, functions, nodes).records();
        for answer in [
            both.pack.answer(&records),
            both.unpack.answer(&reference::lay_out(&records)),
        ] {
            assert_eq!(answer, refused(4, 0));
        }
    }
}

/// Every choice of so many nodes out of these, as function 0. Function 1 has
/// one number parameter and is a Const.
fn every_body(nodes: &[Record], length: u32, check: &mut impl FnMut(&[u8])) {
    let record = |kind, a, b| Record { kind, a, b, i: 0 };
    let header = record(1, 2, length as u16 + 1);
    let functions = [record(1, 0, length as u16), record(0, 1, 1)];
    for mut number in 0..nodes.len().pow(length) {
        let mut records = vec![header, functions[0], functions[1]];
        for _ in 0..length {
            records.push(nodes[number % nodes.len()]);
            number /= nodes.len();
        }
        records.push(Record::default());
        check(&Record::bytes(&records));
    }
}

/// In prefix form or not, and with a kind or a function that isn't there.
#[test]
fn every_body_of_up_to_four_nodes() {
    let mut both = Both::new();
    let node = |kind, b| Record {
        kind,
        b,
        ..Record::default()
    };
    let mut nodes: Vec<Record> = (0..=9).map(|kind| node(kind, 0)).collect();
    nodes.extend([node(kind::CALL, 1), node(kind::CALL, 2)]);
    for length in 1..=4 {
        every_body(&nodes, length, &mut |records| {
            let packed = both.pack.answer(records);
            let unpacked = both.unpack.answer(&reference::lay_out(records));
            assert_eq!(packed.is_ok(), unpacked.is_ok());
            assert_eq!(packed.is_ok(), Program::from_records(records).is_ok());
        });
    }
    for checked in [&both.pack, &both.unpack] {
        checked.assert_seen(&[0, 6, 7, 13], 300);
    }
}
