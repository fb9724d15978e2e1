//! Damage to program files and records at random.

use crate::program::file::{BLOCK_NUMBER, CHECK};
use crate::program::{lay_out, mend_checks, BLOCK_BYTES, RECORD_BYTES};
use crate::random::Random;

use super::file_damage::{change, records, FileDamage};
use super::record_damage::RecordDamage;

/// A byte of a file: of any block, but often of its first records or its
/// fields.
fn any_place(random: &mut Random, file: &[u8]) -> usize {
    let block = random.below(file.len().div_ceil(BLOCK_BYTES)) * BLOCK_BYTES;
    let byte = match random.below(4) {
        0 => random.below(BLOCK_BYTES),
        1 => BLOCK_NUMBER + random.below(BLOCK_BYTES - BLOCK_NUMBER),
        2 => random.below(RECORD_BYTES * 12),
        _ => random.below(CHECK),
    };
    (block + byte).min(file.len() - 1)
}

/// A program file, not empty, with one byte or two changed, and the checks
/// mended or not. It may be the same file.
pub fn changed_file(random: &mut Random, file: &[u8], mend: bool) -> Vec<u8> {
    let mut result = file.to_vec();
    for _ in 0..random.pick(&[1, 1, 2]) {
        let place = any_place(random, file);
        change(random, &mut result, place);
    }
    if mend {
        mend_checks(&mut result);
    }
    result
}

/// A program file, not empty, cut or lengthened by bytes or blocks, the
/// checks mended.
pub fn resized_file(random: &mut Random, file: &[u8]) -> Vec<u8> {
    let mut result = file.to_vec();
    if random.below(2) == 0 {
        let length = random.below(file.len());
        result.truncate(random.pick(&[length, length / BLOCK_BYTES * BLOCK_BYTES]));
    } else {
        let length = random.pick(&[1, 2, 8, 510, 511, 512, 513, 1024, 8704]);
        let zero = random.below(2) == 0;
        result.extend((0..length).map(|_| if zero { 0 } else { random.byte() }));
    }
    mend_checks(&mut result);
    result
}

/// A program's file with damage at random: changed, cut or lengthened, of one
/// of the kinds aimed at a refusal, or with damaged records. It may still be
/// a right file, or the same one.
pub fn damaged_file(random: &mut Random, file: &[u8]) -> Vec<u8> {
    match random.below(10) {
        0 => changed_file(random, file, false),
        1..=4 => changed_file(random, file, true),
        5 => resized_file(random, file),
        6 | 7 => {
            let damage = random.pick(&FileDamage::ALL);
            let damaged = damage.apply(random, file);
            damaged.map_or(file.to_vec(), |(damaged, _)| damaged)
        }
        _ => {
            let mut damaged = damaged_records(random, &records(file));
            damaged.resize(damaged.len().next_multiple_of(RECORD_BYTES), 0);
            lay_out(&damaged)
        }
    }
}

/// The records of a program with damage at random: a byte changed; records
/// taken out, put in or put in another's place; cut or lengthened; a function
/// more or less and a node less or more in the header; or one of the kinds
/// aimed at a refusal. They may still be right, or the same.
pub fn damaged_records(random: &mut Random, records: &[u8]) -> Vec<u8> {
    let mut result = records.to_vec();
    let count = records.len() / RECORD_BYTES;
    let one = random.below(count) * RECORD_BYTES;
    let two = random.below(count) * RECORD_BYTES;
    let record = &records[two..two + RECORD_BYTES];
    match random.below(12) {
        0 | 1 => {
            let place = random.below(records.len());
            change(random, &mut result, place);
        }
        2 => drop(result.drain(one..one + RECORD_BYTES)),
        3 => drop(result.splice(one..one, record.to_vec())),
        4 => result[one..one + RECORD_BYTES].copy_from_slice(record),
        5 => result.truncate(random.below(records.len())),
        6 => {
            let length = random.pick(&[1, 4, 7, 8, 9, 16, 504]);
            result.resize(records.len() + length, 0);
        }
        7 => {
            let more = random.pick(&[1, u8::MAX]);
            result[1] = records[1].wrapping_add(more);
            result[2] = records[2].wrapping_sub(more);
        }
        _ => {
            let damage = random.pick(&RecordDamage::ALL);
            if let Some((damaged, _)) = damage.apply(random, records) {
                result = damaged;
            }
        }
    }
    result
}
