//! Instructions at random.

use crate::generate::label;
use crate::machine::{assemble, opcode, Instruction};
use crate::random::Random;

/// Opcodes 0 to 13.
pub const OPCODES: usize = 14;

/// Any opcode, often one that pushes.
pub fn any_opcode(random: &mut Random) -> u8 {
    match random.below(4) {
        0 => random.pick(&[opcode::PUSH, opcode::GET, opcode::READ_NUMBER]),
        _ => random.below(OPCODES) as u8,
    }
}

/// Any instruction of code with so many.
pub fn any_instruction(random: &mut Random, count: usize) -> Instruction {
    let opcode = any_opcode(random);
    instruction(random, opcode, count)
}

/// An instruction with this opcode in code with so many.
pub fn instruction(random: &mut Random, opcode: u8, count: usize) -> Instruction {
    let mut made = Instruction {
        opcode,
        byte1: 0,
        operand: 0,
        number: 0,
    };
    match opcode {
        opcode::PUSH => made.number = number(random) as u32,
        opcode::GET => made.operand = word(random),
        opcode::IFNOT | opcode::JUMP | opcode::READ_TAG => made.operand = target(random, count),
        opcode::CALL => {
            made.operand = target(random, count);
            made.byte1 = small_byte(random, 4);
        }
        opcode::RETURN => made.byte1 = small_byte(random, 2),
        _ => (),
    }
    made
}

/// Often 0, 1 or -1, which matter to ifnot.
pub fn number(random: &mut Random) -> i32 {
    match random.below(4) {
        0 => 0,
        1 => random.pick(&[1, -1]),
        _ => label(random),
    }
}

/// Mostly below the bound.
fn small_byte(random: &mut Random, bound: usize) -> u8 {
    match random.below(16) {
        0 => random.byte(),
        1 => random.pick(&[2, 3, 255]),
        _ => random.below(bound) as u8,
    }
}

/// Mostly one of the first words.
fn word(random: &mut Random) -> u16 {
    match random.below(16) {
        0 => any_operand(random),
        _ => random.below(4) as u16,
    }
}

/// Mostly an address with an instruction, at times the first one without.
fn target(random: &mut Random, count: usize) -> u16 {
    match random.below(24) {
        0 => any_operand(random),
        1 => count as u16,
        _ => random.below(count + 1) as u16,
    }
}

/// Any operand, at times with a byte 0.
pub fn any_operand(random: &mut Random) -> u16 {
    let any = random.number() as u16;
    random.pick(&[any, any & 0xff, any & 0xff00, u16::MAX])
}

/// The bytes of the instructions; half of the time the unused fields hold
/// anything, "Unused fields are … not looked at".
pub fn assembled(random: &mut Random, instructions: &[Instruction]) -> Vec<u8> {
    if random.below(2) == 0 {
        return assemble(instructions);
    }
    let noisy = |one: &Instruction| with_noise(random, *one);
    assemble(&instructions.iter().map(noisy).collect::<Vec<_>>())
}

fn with_noise(random: &mut Random, instruction: Instruction) -> Instruction {
    let (byte1, operand, number) = fields_used(instruction.opcode);
    let noise = random.next_u64();
    let mut noisy = instruction;
    if !byte1 {
        noisy.byte1 = noise as u8;
    }
    if !operand {
        noisy.operand = (noise >> 8) as u16;
    }
    if !number {
        noisy.number = (noise >> 24) as u32;
    }
    noisy
}

/// Whether byte 1, the operand and the number are used.
fn fields_used(opcode: u8) -> (bool, bool, bool) {
    match opcode {
        opcode::PUSH => (false, false, true),
        opcode::GET | opcode::IFNOT | opcode::JUMP | opcode::READ_TAG => (false, true, false),
        opcode::CALL => (true, true, false),
        opcode::RETURN => (true, false, false),
        _ => (false, false, false),
    }
}
