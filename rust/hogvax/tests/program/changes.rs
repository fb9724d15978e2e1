//! Files with a byte changed, and files and records of other lengths.

use reference::generate::{self, programs};
use reference::{mend_checks, shown, Random};

use super::*;

fn random_file(random: &mut Random, records: usize) -> Vec<u8> {
    let program = programs::program_of_records(random, records);
    reference::write_file(&program.records()).unwrap()
}

/// The file with this byte changed, with its check as it was and mended.
fn check_change(unpack: &mut Checked, file: &[u8], place: usize, change: u8) {
    let mut changed = file.to_vec();
    changed[place] ^= change;
    let answer = unpack.answer(&changed);
    assert_eq!(answer, refused(2, place / 512), "{}", shown(&changed));
    mend_checks(&mut changed);
    let answer = unpack.answer(&changed);
    if place % 512 >= 510 {
        assert!(
            changed == file && answer.is_ok(),
            "a check is what it must be"
        );
    }
}

/// Every byte of the records used and of the block's fields changed in every
/// way.
#[test]
fn every_change_of_one_byte() {
    let mut random = Random::new(110);
    let mut unpack = Checked::new(&UNPACK);
    let records = programs::program(&mut random, 2, 14).records();
    let file = reference::write_file(&records).unwrap();
    for place in (0..records.len() + 8).chain(496..512) {
        for change in 1..=255 {
            check_change(&mut unpack, &file, place, change);
        }
    }
    unpack.assert_seen(&[0, 2, 3, 4, 5, 6, 7, 13], 50);
}

/// Every byte changed in some ways, in files of one and two blocks whose last
/// one is full or not.
#[test]
fn every_byte_changed() {
    let mut random = Random::new(111);
    let mut unpack = Checked::new(&UNPACK);
    for records in [30, 63, 64, 126] {
        let file = random_file(&mut random, records);
        for place in 0..file.len() {
            let any = 1 + random.below(255) as u8;
            for change in [1, 2, 16, 128, 255, any] {
                check_change(&mut unpack, &file, place, change);
            }
        }
    }
    unpack.assert_seen(&[0, 2, 3, 4, 5, 6, 7, 13], 50);
}

#[test]
fn bytes_of_longer_files_changed() {
    let mut random = Random::new(112);
    let mut unpack = Checked::new(&UNPACK);
    for records in [127, 500, 1_008, 1_009, 1_057] {
        let file = random_file(&mut random, records);
        for _ in 0..40 {
            for places in [64, 512, file.len()] {
                let place = random.below(places);
                let change = 1 + random.below(255) as u8;
                check_change(&mut unpack, &file, place, change);
            }
        }
        for _ in 0..60 {
            for mend in [false, true] {
                unpack.check(&generate::changed_file(&mut random, &file, mend));
            }
        }
    }
    unpack.assert_seen(&[0, 2, 3, 4, 5, 6, 7, 13], 1);
}

/// Every byte of the records changed in some ways; the writer knows no check.
#[test]
fn every_byte_of_records_changed() {
    let mut random = Random::new(113);
    let mut pack = Checked::new(&PACK);
    for (functions, nodes) in [(1, 8), (4, 30), (32, 80), (2, 124)] {
        let records = programs::program(&mut random, functions, nodes).records();
        for place in 0..records.len() {
            let any = 1 + random.below(255) as u8;
            for change in [1, 2, 8, 128, 255, any] {
                let mut changed = records.clone();
                changed[place] ^= change;
                pack.check(&changed);
            }
        }
    }
    pack.assert_all_seen(100);
}

// Lengths

/// The bytes cut, or lengthened with these over and over.
fn resized(bytes: &[u8], length: usize, more: &[u8]) -> Vec<u8> {
    let mut result = bytes.to_vec();
    while result.len() < length {
        result.extend_from_slice(more);
    }
    result.truncate(length);
    result
}

#[test]
fn files_of_other_lengths() {
    let mut random = Random::new(114);
    let mut unpack = Checked::new(&UNPACK);
    for records in [3, 63, 64, 126, 1_008, 1_057] {
        let file = random_file(&mut random, records);
        for length in [
            0, 1, 2, 7, 8, 256, 510, 511, 512, 513, 1_023, 1_024, 1_025, 8_191, 8_192, 8_193,
            8_703, 8_704, 8_705, 9_215, 9_216, 9_217, 9_728, 17_408, 66_048,
        ] {
            for more in [&[0; 512], &[255; 512], &file[..], &file[..512]] {
                let mut other = resized(&file, length, more);
                let wrong = length % 512 != 0 || !(1..=17).contains(&(length / 512));
                for _ in 0..2 {
                    let answer = unpack.answer(&other);
                    assert_eq!(answer == refused(1, 0), wrong, "length {length}");
                    mend_checks(&mut other);
                }
            }
        }
    }
    unpack.assert_seen(&[0, 1, 3, 13], 10);
}

#[test]
fn every_length_of_a_file() {
    let mut random = Random::new(115);
    let mut unpack = Checked::new(&UNPACK);
    let file = random_file(&mut random, 130);
    let longer = resized(&file, 2_100, &[0]);
    for length in 0..=longer.len() {
        let answer = unpack.answer(&longer[..length]);
        match length {
            1_536 => assert!(answer.is_ok()),
            512 | 1_024 | 2_048 => assert_eq!(answer, refused(3, 0)),
            _ => assert_eq!(answer, refused(1, 0)),
        }
    }
}

#[test]
fn every_length_of_records() {
    let mut random = Random::new(116);
    let mut pack = Checked::new(&PACK);
    for (functions, nodes) in [(1, 8), (3, 70)] {
        let records = programs::program(&mut random, functions, nodes).records();
        for more in [0, 1, 8] {
            let longer = resized(&records, records.len() + 33, &[more]);
            for length in 0..=longer.len() {
                let answer = pack.answer(&longer[..length]);
                if length == records.len() {
                    assert!(answer.is_ok());
                } else {
                    assert_eq!(answer, refused(4, 0));
                }
            }
        }
    }
}

/// What follows the longest input changes nothing, however long it is.
#[test]
fn inputs_longer_than_the_longest() {
    let mut random = Random::new(117);
    let mut both = Both::new();
    let records = programs::program(&mut random, 32, 1_024).records();
    let file = both.check_program(&records);
    let longest = (hogvax::LONGEST_RECORDS, hogvax::LONGEST_FILE);
    assert_eq!((records.len(), file.len()), longest);
    for more in [1, 8, 512, 65_536, 1_000_000] {
        for byte in [0, 1, 255] {
            let longer = |bytes: &[u8]| resized(bytes, bytes.len() + more, &[byte; 512]);
            assert_eq!(both.pack.answer(&longer(&records)), refused(4, 0));
            assert_eq!(both.unpack.answer(&longer(&file)), refused(1, 0));
        }
    }
}
