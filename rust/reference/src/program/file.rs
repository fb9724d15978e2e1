//! The blocks of a program file.

use crate::tree::{refuse, Refusal};

use super::record::RECORD_BYTES;
use super::Program;
use super::{BAD_BLOCK, BAD_CHECK, BAD_LENGTH, BUFFER_TOO_SHORT};

/// "Blocks of 512 bytes"
pub const BLOCK_BYTES: usize = 512;

/// Blocks "1 to 17"
pub const BLOCK_LIMIT: usize = 17;

/// "Bytes 0–503: 63 records of 8 bytes."
pub const BLOCK_RECORDS: usize = 63;

/// "504–505: block number from 0."
pub const BLOCK_NUMBER: usize = 504;

/// "506–507: records used"
pub const RECORDS_USED: usize = 506;

/// "508–509: number of blocks."
pub const NUMBER_OF_BLOCKS: usize = 508;

/// "510–511: check"
pub const CHECK: usize = 510;

/// The records of a program file, or the first refusal: "A check row is
/// finished for the whole file before the next begins; the two block tests go
/// together block by block."
pub fn read_file(file: &[u8]) -> Result<Vec<u8>, Refusal> {
    let blocks = file.len() / BLOCK_BYTES;
    if file.len() != blocks * BLOCK_BYTES || !(1..=BLOCK_LIMIT).contains(&blocks) {
        return refuse(BAD_LENGTH, 0);
    }
    let mut records = Vec::new();
    for (number, block) in file.chunks_exact(BLOCK_BYTES).enumerate() {
        records.extend_from_slice(read_block(block, number, blocks)?);
    }
    Program::from_records(&records)?;
    Ok(records)
}

/// The records used of a block: "2 check, then 3 other block fields or unused
/// records". "504–505: block number from 0. 506–507: records used, 1 to 63,
/// 63 in all but the last. 508–509: number of blocks."; "Unused records are
/// zero."
fn read_block(block: &[u8], number: usize, blocks: usize) -> Result<&[u8], Refusal> {
    if word_sum(block) != 65_535 {
        return refuse(BAD_CHECK, number);
    }
    let used = word(block, RECORDS_USED);
    let last = number + 1 == blocks;
    let right = word(block, BLOCK_NUMBER) == number
        && (1..=BLOCK_RECORDS).contains(&used)
        && (last || used == BLOCK_RECORDS)
        && word(block, NUMBER_OF_BLOCKS) == blocks;
    if !right {
        return refuse(BAD_BLOCK, number);
    }
    let (records, unused) = block[..BLOCK_NUMBER].split_at(RECORD_BYTES * used);
    if unused.iter().any(|&byte| byte != 0) {
        return refuse(BAD_BLOCK, number);
    }
    Ok(records)
}

/// The 16-bit word at this place, low byte first.
fn word(block: &[u8], place: usize) -> usize {
    usize::from(u16::from_le_bytes([block[place], block[place + 1]]))
}

fn set_word(block: &mut [u8], place: usize, value: usize) {
    let value = u16::try_from(value).expect("a 16-bit word");
    block[place..place + 2].copy_from_slice(&value.to_le_bytes());
}

/// The sum of "the block's 256 16-bit words" modulo 65,536.
fn word_sum(block: &[u8]) -> usize {
    let words = (0..BLOCK_BYTES).step_by(2);
    words.map(|place| word(block, place)).sum::<usize>() % 65_536
}

/// "510–511: check, so that the block's 256 16-bit words sum to 65,535 modulo
/// 65,536."
fn mend_check(block: &mut [u8]) {
    set_word(block, CHECK, 0);
    set_word(block, CHECK, 65_535 - word_sum(block));
}

/// Sets the check of every whole block to what the rest of it demands.
pub fn mend_checks(file: &mut [u8]) {
    file.chunks_exact_mut(BLOCK_BYTES).for_each(mend_check);
}

/// The file of a program's records: "The file writer takes records, applies
/// rows header to prefix form".
pub fn write_file(records: &[u8]) -> Result<Vec<u8>, Refusal> {
    Program::from_records(records)?;
    Ok(lay_out(records))
}

/// The records in blocks, whatever they hold, with 63 in all but the last.
pub fn lay_out(records: &[u8]) -> Vec<u8> {
    let runs: Vec<&[u8]> = records.chunks(RECORD_BYTES * BLOCK_RECORDS).collect();
    lay_out_runs(&runs)
}

/// A block for each of these runs of at most 63 records, whatever they hold.
pub fn lay_out_runs(runs: &[&[u8]]) -> Vec<u8> {
    let mut file = Vec::new();
    for (number, records) in runs.iter().enumerate() {
        let mut block = [0; BLOCK_BYTES];
        block[..records.len()].copy_from_slice(records);
        set_word(&mut block, BLOCK_NUMBER, number);
        set_word(&mut block, RECORDS_USED, records.len() / RECORD_BYTES);
        set_word(&mut block, NUMBER_OF_BLOCKS, runs.len());
        mend_check(&mut block);
        file.extend_from_slice(&block);
    }
    file
}

/// As `read_file`, into the start of a lent buffer; gives the number of bytes
/// written.
pub fn read_file_into(file: &[u8], buffer: &mut [u8]) -> Result<usize, Refusal> {
    fill(buffer, &read_file(file)?)
}

/// As `write_file`, into the start of a lent buffer; gives the number of
/// bytes written.
pub fn write_file_into(records: &[u8], buffer: &mut [u8]) -> Result<usize, Refusal> {
    fill(buffer, &write_file(records)?)
}

/// "13 code, file or work buffer too short", at 0; "A refusal leaves every
/// output buffer untouched".
fn fill(buffer: &mut [u8], bytes: &[u8]) -> Result<usize, Refusal> {
    if buffer.len() < bytes.len() {
        return refuse(BUFFER_TOO_SHORT, 0);
    }
    buffer[..bytes.len()].copy_from_slice(bytes);
    Ok(bytes.len())
}
