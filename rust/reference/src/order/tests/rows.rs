//! The rows before the two passes.

use super::*;
use crate::generate::{FileDamage, RecordDamage};

/// A program that passes, one that pass one refuses and one that pass two
/// does.
fn programs() -> [Program; 3] {
    let call = Expr::call(0, 0, vec![]);
    [call, Expr::var(0), Expr::constant(0)].map(single)
}

#[test]
fn each_earlier_row_is_told_first() {
    let mut random = Random::new(90);
    for program in programs() {
        let records = program.records();
        for damage in RecordDamage::ALL {
            let Some((damaged, refusal)) = damage.apply(&mut random, &records) else {
                continue;
            };
            assert_eq!(check_records(&damaged), Err(refusal));
            assert_eq!(check(&lay_out(&damaged)), Err(refusal));
        }
        for damage in FileDamage::ALL {
            let Some((damaged, refusal)) = damage.apply(&mut random, &lay_out(&records)) else {
                continue;
            };
            assert_eq!(check(&damaged), Err(refusal));
        }
    }
}

#[test]
fn wrong_lengths() {
    let header = Err(Refusal {
        number: 4,
        position: 0,
    });
    let length = Err(Refusal {
        number: 1,
        position: 0,
    });
    let records = programs()[0].records();
    for length in 0..records.len() {
        assert_eq!(check_records(&records[..length]), header);
    }
    assert_eq!(check_records(&[&records[..], &[0]].concat()), header);
    let file = lay_out(&records);
    assert_eq!(check(&file), Ok(()));
    assert_eq!(check(&file[..511]), length);
    assert_eq!(check(&[]), length);
}
