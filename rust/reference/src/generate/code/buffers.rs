//! Code buffers of any instructions, any bytes and any length.

use crate::machine::{mnemonic, opcode, Instruction, TestCase};
use crate::machine::{INSTRUCTION_BYTES, INSTRUCTION_LIMIT};
use crate::random::Random;

use super::draft::Draft;
use super::fuel::moderate;
use super::inputs::{input, output, stray};
use super::instructions::{any_instruction, any_opcode, assembled, instruction};

/// So many instructions can be given by an operand.
const ADDRESSES: usize = 1 << 16;

/// A case with this code and anything else.
pub fn case_of(random: &mut Random, code: Vec<u8>) -> TestCase {
    TestCase {
        code,
        input: input(random),
        fuel: moderate(random),
        output: output(random),
    }
}

/// So many instructions of any opcode, their operands likely to be of use.
pub fn instructions(random: &mut Random, count: usize) -> Vec<Instruction> {
    (0..count).map(|_| any_instruction(random, count)).collect()
}

/// Valid opcodes with operands at random; 0 to 40 instructions.
pub fn sequence(random: &mut Random) -> TestCase {
    let bound = random.pick(&[4, 16, 41]);
    let count = random.below(bound);
    let instructions = instructions(random, count);
    let code = assembled(random, &instructions);
    case_of(random, code)
}

/// Any bytes, small bytes, or any bytes after valid opcodes.
pub fn arbitrary(random: &mut Random) -> TestCase {
    let length = random.below(200);
    let kind = random.below(3);
    let code = (0..length).map(|place| match kind {
        0 => random.byte(),
        1 => random.below(16) as u8,
        _ if place % INSTRUCTION_BYTES == 0 => any_opcode(random),
        _ => random.byte() & random.byte() & random.byte(),
    });
    let code = code.collect();
    case_of(random, code)
}

/// Code with a rest of 1 to 7 bytes at its end; control often comes there.
pub fn not_whole(random: &mut Random) -> TestCase {
    let rest = 1 + random.below(INSTRUCTION_BYTES - 1);
    let mut case = match random.below(4) {
        0 => sequence(random),
        1 => long(random),
        _ => going_through(random),
    };
    let bytes = assembled(random, &[mnemonic::ret(0)]);
    case.code.extend_from_slice(&bytes[..rest]);
    case
}

/// Code whose instructions are all performed, and control comes to its end.
fn going_through(random: &mut Random) -> TestCase {
    let draft = Draft::begun(random);
    let (left, free) = (stray(random), random.below(8));
    draft.case(random, &left, free)
}

/// Code with more than 4,128 instructions; control comes to address 4,127 and
/// on to 4,128 or back, or straight to an address from 4,128 up.
pub fn long(random: &mut Random) -> TestCase {
    let mut draft = Draft::begun(random);
    let first = INSTRUCTION_LIMIT + 1;
    let count = match random.below(32) {
        0 => ADDRESSES,
        1..=8 => first,
        _ => first + random.below(200),
    };
    match random.below(4) {
        0 => {
            let address = too_high(random, count);
            draft.go_to(random, address);
        }
        1 => {
            draft.straight_to(random, INSTRUCTION_LIMIT - 1 - 20);
            draft.detours(random);
            draft.straight_to(random, INSTRUCTION_LIMIT - 1);
        }
        _ => draft.go_to(random, INSTRUCTION_LIMIT - 1),
    }
    let stretch = instructions(random, 16);
    while draft.code.len() < count {
        let next = stretch[draft.code.len() % stretch.len()];
        draft.code.push(next);
    }
    draft.code[INSTRUCTION_LIMIT - 1] = last_of_all(random, count);
    let (left, free) = (stray(random), random.below(8));
    draft.case(random, &left, free)
}

/// An address from 4,128 up in code with so many instructions, most often
/// 4,128.
fn too_high(random: &mut Random, count: usize) -> usize {
    match random.below(2) {
        0 => INSTRUCTION_LIMIT,
        _ => INSTRUCTION_LIMIT + random.below(count.min(ADDRESSES) - INSTRUCTION_LIMIT),
    }
}

/// The instruction at 4,127: one that goes on, goes too far, or goes back.
fn last_of_all(random: &mut Random, count: usize) -> Instruction {
    let far = too_high(random, count) as u16;
    let back = random.below(8) as u16;
    match random.below(8) {
        0 => mnemonic::jump(far),
        1 => mnemonic::call(far, 0),
        2 => mnemonic::jump(back),
        3 => mnemonic::ret(0),
        4 => mnemonic::read_tag(far),
        5 => instruction(random, opcode::PUSH, count),
        _ => any_instruction(random, count),
    }
}
