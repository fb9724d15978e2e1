//! The rows header, functions and nodes.

use super::*;

/// Kind, a and b of a record.
pub type Fields = (u8, u8, u16);

pub const C: Fields = (0, 0, 0);
pub const ADD: Fields = (2, 0, 0);
pub const LEAF: Fields = (5, 0, 0);

/// Number parameters and nodes of a function.
pub type Nodes<'a> = (u8, &'a [Fields]);

/// The records with this byte of this record changed.
pub fn with(records: &[u8], record: usize, byte: usize, value: u8) -> Vec<u8> {
    let mut records = records.to_vec();
    records[8 * record + byte] = value;
    records
}

/// The records of these functions.
pub fn records(functions: &[Nodes]) -> Vec<u8> {
    let nodes: Vec<_> = functions.iter().flat_map(|(_, nodes)| *nodes).collect();
    let record = |kind, a, b: usize| Record {
        kind,
        a,
        b: b as u16,
        i: 0,
    };
    let mut records = vec![record(1, functions.len() as u8, nodes.len())];
    for (parameters, nodes) in functions {
        records.push(record(0, *parameters, nodes.len()));
    }
    for &&(kind, a, b) in &nodes {
        records.push(record(kind, a, usize::from(b)));
    }
    Record::bytes(&records)
}

// Header

#[test]
fn every_byte_of_the_header() {
    for byte in 0..8 {
        for value in 0..=255 {
            let records = with(&GROW, 0, byte, value);
            if records == GROW {
                continue;
            }
            assert_records_refused(&records, 4, 0);
        }
    }
}

#[test]
fn every_length_of_records() {
    let longer = [&GROW[..], &[0; 17]].concat();
    for length in 0..longer.len() {
        if length != 80 {
            assert_records_refused(&longer[..length], 4, 0);
        }
    }
}

#[test]
fn limits_of_functions_and_nodes() {
    let mut random = Random::new(40);
    for (functions, nodes) in [(1, 1), (1, 1024), (32, 32), (32, 1024)] {
        let program = programs::program(&mut random, functions, nodes);
        assert_accepted(&program.records(), &program);
    }
    for (functions, nodes) in [(33, 33), (33, 1024), (1, 1025), (32, 1025), (34, 1026)] {
        let program = programs::program(&mut random, functions, nodes);
        assert_records_refused(&program.records(), 4, 0);
    }
    assert_records_refused(&[1, 0, 1, 0, 0, 0, 0, 0, 0, 0, 0, 0, 0, 0, 0, 0], 4, 0);
    assert_records_refused(&[1, 1, 0, 0, 0, 0, 0, 0, 0, 0, 0, 0, 0, 0, 0, 0], 4, 0);
    assert_records_refused(&[1, 0, 0, 0, 0, 0, 0, 0], 4, 0);
}

#[test]
fn other_editions() {
    let mut program = grow();
    for edition in [0, 2, 255] {
        program.edition = edition;
        assert_records_refused(&program.records(), 4, 0);
    }
}

// Functions

#[test]
fn every_field_of_a_function() {
    let good = records(&[(0, &[C]), (4, &[C]), (0, &[C]), (3, &[C])]);
    Program::from_records(&good).unwrap();
    for record in 1..=4 {
        for value in 2..=255 {
            assert_records_refused(&with(&good, record, 0, value), 5, record);
        }
        for value in 5..=255 {
            assert_records_refused(&with(&good, record, 1, value), 5, record);
        }
        assert_records_refused(&with(&good, record, 2, 0), 5, record);
        for byte in 4..8 {
            assert_records_refused(&with(&good, record, byte, 1), 5, record);
            assert_records_refused(&with(&good, record, byte, 128), 5, record);
        }
        for value in 0..=1 {
            assert!(Program::from_records(&with(&good, record, 0, value)).is_ok());
        }
        for value in 1..=4 {
            let records = with(&good, record, 1, value);
            if record == 1 {
                assert_records_refused(&records, 5, 1);
            } else {
                assert!(Program::from_records(&records).is_ok());
            }
        }
    }
}

/// Reported at record F, also for a count above N in function 0.
#[test]
fn a_wrong_sum_of_counts() {
    let good = records(&[(0, &[C]), (0, &[C]), (0, &[C])]);
    for record in 1..=3 {
        for value in [2, 3, 4, 255] {
            assert_records_refused(&with(&good, record, 2, value), 5, 3);
        }
        assert_records_refused(&with(&good, record, 3, 1), 5, 3);
        assert_records_refused(&with(&good, record, 3, 255), 5, 3);
    }
    assert_records_refused(&with(&GROW, 1, 2, 7), 5, 1);
    assert_records_refused(&with(&GROW, 1, 2, 9), 5, 1);
    let field = with(&with(&good, 1, 3, 255), 2, 0, 2);
    assert_records_refused(&field, 5, 2);
}

#[test]
fn a_sum_of_counts_right_modulo_65536() {
    let good = records(&[(0, &[C, C]), (0, &[C]), (0, &[C])]);
    let mut wrong = good.clone();
    wrong[10..12].copy_from_slice(&65_535_u16.to_le_bytes());
    wrong[18..20].copy_from_slice(&4_u16.to_le_bytes());
    assert_records_refused(&wrong, 5, 3);
    let mut wrong = good;
    wrong[10..12].copy_from_slice(&65_535_u16.to_le_bytes());
    wrong[18..20].copy_from_slice(&65_535_u16.to_le_bytes());
    wrong[26..28].copy_from_slice(&6_u16.to_le_bytes());
    assert_records_refused(&wrong, 5, 3);
}

// Nodes

#[test]
fn kinds_above_8() {
    for kind in 9..=255 {
        assert_records_refused(&with(&GROW, 2, 0, kind), 6, 2);
        assert_records_refused(&with(&GROW, 9, 0, kind), 6, 9);
    }
}

/// Const uses i, Var and Case a, Call a and b, the others none.
#[test]
fn unused_fields() {
    for kind in 0..9_u8 {
        let body: &[Fields] = match kind {
            0 | 1 | 8 => &[(kind, 0, 0)],
            5 => &[LEAF, C],
            3 => &[(kind, 0, 0), C, C, C],
            _ => &[(kind, 0, 0), C, C],
        };
        let good = records(&[(0, &[C]), (0, body)]);
        for byte in 1..8 {
            let used = match kind {
                0 => byte >= 4,
                1 | 7 => byte == 1,
                8 => byte <= 2,
                _ => false,
            };
            let records = with(&good, 4, byte, 1);
            if used {
                assert!(Program::from_records(&records).is_ok());
            } else {
                assert_records_refused(&records, 6, 4);
                assert_records_refused(&with(&good, 4, byte, 255), 6, 4);
            }
        }
    }
}

#[test]
fn operands_of_any_value() {
    for i in [i32::MIN, -1, 0, 1, i32::MAX] {
        let program = single(false, constant(i));
        assert_accepted(&program.records(), &program);
    }
    for a in 0..=255 {
        for body in [
            Expr::var(a),
            Expr::case(a, constant(0), constant(0)),
            call(0, a),
        ] {
            let program = single(true, body);
            assert_accepted(&program.records(), &program);
        }
    }
}

#[test]
fn b_not_below_f() {
    for functions in [1, 2, 32] {
        for b in [0, 1, 2, 31, 32, 33, 255, 256, 257, 65_535] {
            let calls = [(8, 0, b)];
            let bodies: Vec<Nodes> = vec![(0, &calls); functions];
            let records = records(&bodies);
            if usize::from(b) < functions {
                assert!(Program::from_records(&records).is_ok());
            } else {
                assert_records_refused(&records, 6, 1 + functions);
            }
        }
    }
}
