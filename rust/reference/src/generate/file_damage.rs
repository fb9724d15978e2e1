//! Damage to program files, each kind aimed at one refusal.

use crate::program::file::{BLOCK_NUMBER, NUMBER_OF_BLOCKS, RECORDS_USED};
use crate::program::{lay_out, lay_out_runs, mend_checks};
use crate::program::{BLOCK_BYTES, BLOCK_LIMIT, BLOCK_RECORDS, RECORD_BYTES};
use crate::random::Random;
use crate::tree::Refusal;

/// A kind of damage to a program file.
#[derive(Clone, Copy, Debug, PartialEq, Eq)]
pub enum FileDamage {
    /// 1: no bytes.
    Empty,
    /// 1: a block that isn't whole at the end.
    PartBlock,
    /// 1: more than 17 blocks, right by themselves.
    ManyBlocks,
    /// 2: a byte changed and the check left as it was.
    Check,
    /// 3: another block number.
    BlockNumber,
    /// 3: records used 0 or above 63, or not 63 before the last block.
    RecordsUsed,
    /// 3: another number of blocks.
    NumberOfBlocks,
    /// 3: a byte of an unused record that isn't zero.
    UnusedRecord,
    /// 3: two blocks in each other's place.
    SwappedBlocks,
    /// 3: the last block gone.
    MissingBlock,
    /// 3: the last block twice.
    RepeatedBlock,
    /// 3: fewer than 63 records in a block before the last, the others
    /// following on.
    ShortBlock,
    /// 3: a block more that has no record.
    EmptyBlock,
    /// 4: zero records at the end counted as used.
    MoreUsed,
    /// 4: the last record neither counted as used nor kept.
    FewerUsed,
}

impl FileDamage {
    pub const ALL: [FileDamage; 15] = [
        FileDamage::Empty,
        FileDamage::PartBlock,
        FileDamage::ManyBlocks,
        FileDamage::Check,
        FileDamage::BlockNumber,
        FileDamage::RecordsUsed,
        FileDamage::NumberOfBlocks,
        FileDamage::UnusedRecord,
        FileDamage::SwappedBlocks,
        FileDamage::MissingBlock,
        FileDamage::RepeatedBlock,
        FileDamage::ShortBlock,
        FileDamage::EmptyBlock,
        FileDamage::MoreUsed,
        FileDamage::FewerUsed,
    ];

    /// The number of the refusal that follows.
    pub fn number(self) -> u8 {
        match self {
            FileDamage::Empty | FileDamage::PartBlock | FileDamage::ManyBlocks => 1,
            FileDamage::Check => 2,
            FileDamage::MoreUsed | FileDamage::FewerUsed => 4,
            _ => 3,
        }
    }

    /// The damaged file and its refusal, or none where the file has no place
    /// for the damage. The file given is right up to and with the row of that
    /// refusal; it may be wrong in later rows.
    pub fn apply(self, random: &mut Random, file: &[u8]) -> Option<(Vec<u8>, Refusal)> {
        let mut file = file.to_vec();
        let position = self.damage(random, &mut file)?;
        let refusal = Refusal {
            number: self.number(),
            position,
        };
        Some((file, refusal))
    }

    fn damage(self, random: &mut Random, file: &mut Vec<u8>) -> Option<usize> {
        if let Some(position) = self.leave_unmended(random, file) {
            return Some(position);
        }
        let position = match self.change_field(random, file) {
            Some(position) => position,
            None => self.change_blocks(random, file)?,
        };
        mend_checks(file);
        Some(position)
    }

    /// Damage to the length or the check itself.
    fn leave_unmended(self, random: &mut Random, file: &mut Vec<u8>) -> Option<usize> {
        let blocks = file.len() / BLOCK_BYTES;
        let position = match self {
            FileDamage::Empty => {
                file.clear();
                0
            }
            FileDamage::PartBlock => {
                let bytes = 1 + random.below(BLOCK_BYTES - 1);
                let bytes = random.pick(&[1, 2, 8, 511, bytes]);
                let kept = random.below(blocks + 1);
                file.extend_from_within(..BLOCK_BYTES);
                file.truncate(kept * BLOCK_BYTES + bytes);
                0
            }
            FileDamage::ManyBlocks => {
                let blocks = BLOCK_LIMIT + 1 + random.below(2);
                let records = file[..RECORD_BYTES].repeat(BLOCK_RECORDS * blocks);
                *file = lay_out(&records);
                0
            }
            FileDamage::Check => {
                let block = random.below(blocks);
                let byte = block * BLOCK_BYTES + random.below(BLOCK_BYTES);
                change(random, file, byte);
                block
            }
            _ => return None,
        };
        Some(position)
    }

    /// Damage to one block's fields or unused records.
    fn change_field(self, random: &mut Random, file: &mut [u8]) -> Option<usize> {
        let blocks = file.len() / BLOCK_BYTES;
        let last = blocks - 1;
        let used = word(file, last, RECORDS_USED);
        let block = random.below(blocks);
        let position = match self {
            FileDamage::BlockNumber | FileDamage::NumberOfBlocks => {
                let (field, right) = match self {
                    FileDamage::BlockNumber => (BLOCK_NUMBER, block),
                    _ => (NUMBER_OF_BLOCKS, blocks),
                };
                let wrong = [0, 1, right + 1, right + 256, random.below(65_536), 65_535];
                set_wrong(random, file, block, field, &wrong, |value| value == right);
                block
            }
            FileDamage::RecordsUsed => {
                let wrong = [0, 64, 65_535, 256 + 63, 256 + used, random.below(65_536)];
                set_wrong(random, file, block, RECORDS_USED, &wrong, |value| {
                    value == BLOCK_RECORDS || block == last && (1..=63).contains(&value)
                });
                block
            }
            FileDamage::UnusedRecord if used < BLOCK_RECORDS => {
                let unused = BLOCK_NUMBER - RECORD_BYTES * used;
                let byte = random.below(unused);
                let byte = random.pick(&[0, byte, unused - 1]);
                change(
                    random,
                    file,
                    last * BLOCK_BYTES + RECORD_BYTES * used + byte,
                );
                last
            }
            _ => return None,
        };
        Some(position)
    }

    /// Damage to which blocks there are, and how many records each uses.
    fn change_blocks(self, random: &mut Random, file: &mut Vec<u8>) -> Option<usize> {
        let blocks = file.len() / BLOCK_BYTES;
        let last = blocks - 1;
        let used = word(file, last, RECORDS_USED);
        let position = match self {
            FileDamage::SwappedBlocks if blocks > 1 => {
                let first = random.below(last);
                let second = first + 1 + random.below(last - first);
                for byte in 0..BLOCK_BYTES {
                    file.swap(first * BLOCK_BYTES + byte, second * BLOCK_BYTES + byte);
                }
                first
            }
            FileDamage::MissingBlock if blocks > 1 => {
                file.truncate(last * BLOCK_BYTES);
                0
            }
            FileDamage::RepeatedBlock if blocks < BLOCK_LIMIT => {
                file.extend_from_within(last * BLOCK_BYTES..);
                0
            }
            FileDamage::ShortBlock if blocks > 1 => return short_block(random, file),
            FileDamage::EmptyBlock if blocks < BLOCK_LIMIT => {
                let records = records(file);
                let mut runs: Vec<&[u8]> = records.chunks(RECORD_BYTES * BLOCK_RECORDS).collect();
                runs.push(&[]);
                *file = lay_out_runs(&runs);
                if used < BLOCK_RECORDS {
                    last
                } else {
                    blocks
                }
            }
            FileDamage::MoreUsed if used < BLOCK_RECORDS => {
                let more = 1 + random.below(BLOCK_RECORDS - used);
                set_word(file, last, RECORDS_USED, used + more);
                0
            }
            FileDamage::FewerUsed if used > 1 => {
                let kept = last * BLOCK_BYTES + RECORD_BYTES * (used - 1);
                file[kept..kept + RECORD_BYTES].fill(0);
                set_word(file, last, RECORDS_USED, used - 1);
                0
            }
            _ => return None,
        };
        Some(position)
    }
}

/// Lays the records out with fewer than 63 in a block before the last.
fn short_block(random: &mut Random, file: &mut Vec<u8>) -> Option<usize> {
    let records = records(file);
    let blocks = file.len() / BLOCK_BYTES;
    let place = random.below(blocks - 1);
    let short = random.pick(&[1, 32, 62]);
    let (before, rest) = records.split_at(RECORD_BYTES * BLOCK_RECORDS * place);
    let (run, after) = rest.split_at(RECORD_BYTES * short);
    let mut runs: Vec<&[u8]> = before.chunks(RECORD_BYTES * BLOCK_RECORDS).collect();
    runs.push(run);
    runs.extend(after.chunks(RECORD_BYTES * BLOCK_RECORDS));
    if runs.len() > BLOCK_LIMIT {
        return None;
    }
    *file = lay_out_runs(&runs);
    Some(place)
}

/// The records used of all blocks.
pub(super) fn records(file: &[u8]) -> Vec<u8> {
    let blocks = file.chunks_exact(BLOCK_BYTES).enumerate();
    let used = blocks.map(|(k, block)| &block[..RECORD_BYTES * word(file, k, RECORDS_USED)]);
    used.collect::<Vec<&[u8]>>().concat()
}

fn word(file: &[u8], block: usize, field: usize) -> usize {
    let place = block * BLOCK_BYTES + field;
    usize::from(u16::from_le_bytes([file[place], file[place + 1]]))
}

fn set_word(file: &mut [u8], block: usize, field: usize, value: usize) {
    let place = block * BLOCK_BYTES + field;
    file[place..place + 2].copy_from_slice(&(value as u16).to_le_bytes());
}

/// Sets a field to one of these values that isn't right.
fn set_wrong(
    random: &mut Random,
    file: &mut [u8],
    block: usize,
    field: usize,
    values: &[usize],
    right: impl Fn(usize) -> bool,
) {
    let wrong: Vec<usize> = values
        .iter()
        .copied()
        .filter(|&value| !right(value))
        .collect();
    set_word(file, block, field, random.pick(&wrong));
}

/// Gives this byte another value.
pub(super) fn change(random: &mut Random, bytes: &mut [u8], place: usize) {
    bytes[place] ^= 1 + random.below(255) as u8;
}
