//! The blocks of a file, and lent buffers.

use super::*;

fn random_file(seed: u64, records: usize) -> Vec<u8> {
    let program = programs::program_of_records(&mut Random::new(seed), records);
    write_file(&program.records()).unwrap()
}

/// The file with this word of this block changed and the checks mended.
fn with(file: &[u8], block: usize, place: usize, value: u16) -> Vec<u8> {
    let mut file = file.to_vec();
    let place = 512 * block + place;
    file[place..place + 2].copy_from_slice(&value.to_le_bytes());
    mend_checks(&mut file);
    file
}

// Layout

#[test]
fn blocks_of_every_number_of_records() {
    for (records, blocks, used) in [
        (3, 1, 3),
        (62, 1, 62),
        (63, 1, 63),
        (64, 2, 1),
        (126, 2, 63),
        (127, 3, 1),
        (1008, 16, 63),
        (1009, 17, 1),
        (1057, 17, 49),
    ] {
        let file = random_file(50, records);
        assert_eq!(file.len(), 512 * blocks);
        for (number, block) in file.chunks(512).enumerate() {
            let last = number + 1 == blocks;
            let used = if last { used } else { 63 };
            let fields = [number as u8, 0, used, 0, blocks as u8, 0];
            assert_eq!(block[504..510], fields);
            let unused = &block[8 * usize::from(used)..504];
            assert!(unused.iter().all(|&byte| byte == 0));
            let words = block
                .chunks(2)
                .map(|word| u32::from(word[0]) + 256 * u32::from(word[1]));
            assert_eq!(words.sum::<u32>() % 65_536, 65_535);
        }
        assert_eq!(read_file(&file).unwrap().len(), 8 * records);
    }
}

#[test]
fn mended_checks() {
    let file = random_file(51, 200);
    let mut mended = file.clone();
    for block in mended.chunks_mut(512) {
        block[510..].fill(7);
    }
    assert_file_refused(&mended, 2, 0);
    mend_checks(&mut mended);
    assert_eq!(mended, file);
    let mut rest = vec![9; 512 + 511];
    mend_checks(&mut rest);
    assert!(rest[..510]
        .iter()
        .chain(&rest[512..])
        .all(|&byte| byte == 9));
    mend_checks(&mut []);
}

// Refusals

#[test]
fn a_length_not_1_to_17_whole_blocks() {
    let file = random_file(52, 1057);
    for length in [0, 1, 2, 8, 511, 513, 1023, 1025, 8703] {
        assert_file_refused(&file[..length], 1, 0);
    }
    for more in [1, 8, 511, 512, 513, 1024, 8704] {
        let longer = [&file[..], &vec![0; more]].concat();
        assert_file_refused(&longer, 1, 0);
    }
    assert_file_refused(&[0; 511], 1, 0);
    assert_file_refused(&[255; 513], 1, 0);
}

#[test]
fn every_bit_of_a_block_is_checked() {
    let file = write_file(&GROW).unwrap();
    for byte in 0..512 {
        for bit in 0..8 {
            let mut damaged = file.clone();
            damaged[byte] ^= 1 << bit;
            assert_file_refused(&damaged, 2, 0);
        }
    }
}

#[test]
fn the_check_of_each_block() {
    let file = random_file(53, 1057);
    for block in 0..17 {
        for byte in [0, 1, 503, 504, 506, 508, 510, 511] {
            let mut damaged = file.clone();
            damaged[512 * block + byte] ^= 255;
            assert_file_refused(&damaged, 2, block);
        }
    }
    assert_file_refused(&[0; 512], 2, 0);
}

/// A file whose words sum to more than 65,535 is read, with no check but its
/// own.
#[test]
fn the_sum_is_modulo_65536() {
    let file = random_file(54, 63);
    let sum: u32 = file
        .chunks(2)
        .map(|word| u32::from(word[0]) + 256 * u32::from(word[1]))
        .sum();
    assert!(sum > 65_535);
    assert!(read_file(&file).is_ok());
    let check = u16::from_le_bytes([file[510], file[511]]);
    for other in [
        check.swap_bytes(),
        check.wrapping_add(1),
        check.wrapping_sub(1),
    ] {
        let mut damaged = file.clone();
        damaged[510..].copy_from_slice(&other.to_le_bytes());
        assert_file_refused(&damaged, 2, 0);
    }
}

#[test]
fn block_fields() {
    let file = random_file(55, 127);
    for block in 0..3 {
        for number in [0, 1, 2, 3, 256, 65_535, 256 + block as u16] {
            if usize::from(number) != block {
                assert_file_refused(&with(&file, block, 504, number), 3, block);
            }
        }
        for used in [0, 64, 65, 255, 256 + 63, 256 + 1, 65_535] {
            assert_file_refused(&with(&file, block, 506, used), 3, block);
        }
        for blocks in [0, 1, 2, 4, 17, 256 + 3, 65_535] {
            assert_file_refused(&with(&file, block, 508, blocks), 3, block);
        }
    }
    for used in 0..63 {
        assert_file_refused(&with(&file, 0, 506, used), 3, 0);
    }
}

#[test]
fn unused_records() {
    let file = random_file(56, 65);
    for place in (8 * 2..504).step_by(2) {
        assert_file_refused(&with(&file, 1, place, 1), 3, 1);
        assert_file_refused(&with(&file, 1, place, 128 << 8), 3, 1);
    }
}

/// Fewer than 63 records before the last block, though none is missing.
#[test]
fn a_short_block_before_the_last() {
    let program = programs::program_of_records(&mut Random::new(57), 100);
    let records = program.records();
    let (first, second) = records.split_at(8 * 62);
    assert_file_refused(&lay_out_runs(&[first, second]), 3, 0);
    let (first, second) = records.split_at(8 * 63);
    assert_eq!(read_file(&lay_out_runs(&[first, second])).unwrap(), records);
    assert_file_refused(&lay_out_runs(&[first, second, &[]]), 3, 1);
    assert_file_refused(&lay_out_runs(&[&[], first, second]), 3, 0);
    let full = programs::program_of_records(&mut Random::new(58), 63).records();
    assert_file_refused(&lay_out_runs(&[&full, &[]]), 3, 1);
    assert_file_refused(&lay_out_runs(&[&[]]), 3, 0);
}

#[test]
fn records_used_that_are_not_the_record_count() {
    let file = write_file(&GROW).unwrap();
    for used in 11..=63 {
        assert_file_refused(&with(&file, 0, 506, used), 4, 0);
    }
    for used in 1..10 {
        assert_file_refused(&with(&file, 0, 506, used), 3, 0);
    }
}

// Order

#[test]
fn block_tests_go_together_block_by_block() {
    let file = random_file(59, 130);
    let mut damaged = with(&file, 0, 504, 9);
    damaged[512 + 510] ^= 1;
    assert_file_refused(&damaged, 3, 0);
    damaged[510] ^= 1;
    assert_file_refused(&damaged, 2, 0);
    let mut damaged = with(&file, 1, 508, 9);
    damaged[1024 + 510] ^= 1;
    assert_file_refused(&damaged, 3, 1);
    damaged[512 + 510] ^= 1;
    assert_file_refused(&damaged, 2, 1);
}

#[test]
fn blocks_come_before_records() {
    let mut records = random_file(60, 130);
    records[0] = 2;
    mend_checks(&mut records);
    assert_file_refused(&records, 4, 0);
    assert_file_refused(&with(&records, 2, 500, 1), 3, 2);
    records[1024 + 500] ^= 1;
    assert_file_refused(&records, 2, 2);
    records.push(0);
    assert_file_refused(&records, 1, 0);
}

// Lent buffers

/// Every length of the buffer: too short is 13 at 0 and leaves it untouched,
/// else the bytes stand at the start and the rest is untouched.
fn assert_lent(result: &[u8], call: impl Fn(&mut [u8]) -> Result<usize, Refusal>) {
    let need = result.len();
    for length in (0..need + 20).step_by(7).chain([need - 1, need, need + 1]) {
        let mut buffer = vec![0xaa; length];
        let answer = call(&mut buffer);
        if length < need {
            let (number, position) = (13, 0);
            assert_eq!(answer, Err(Refusal { number, position }));
            assert!(buffer.iter().all(|&byte| byte == 0xaa));
        } else {
            assert_eq!(answer, Ok(need));
            assert_eq!(buffer[..need], *result);
            assert!(buffer[need..].iter().all(|&byte| byte == 0xaa));
        }
    }
}

#[test]
fn buffers_of_every_length() {
    for records in [3, 10, 63, 64] {
        let file = random_file(61, records);
        let records = read_file(&file).unwrap();
        assert_lent(&records, |buffer| read_file_into(&file, buffer));
        assert_lent(&file, |buffer| write_file_into(&records, buffer));
    }
}
