//! Sensible codes, whole or with one field changed, on tokens.

use crate::generate::label;
use crate::machine::known::programs::{listed, FILL, FOREVER, FOREVER_TREE, GROW, SUM};
use crate::machine::{Instruction, TestCase};
use crate::random::Random;

use super::buffers::case_of;
use super::fuel::{moderate, MODERATE_FUEL};
use super::inputs::{deep_input, fitted};
use super::instructions::{any_opcode, any_operand, assembled};

/// The listings, the ones that come to an end most often.
const LISTINGS: [&str; 8] = [GROW, GROW, SUM, SUM, FILL, FILL, FOREVER, FOREVER_TREE];

/// One of the codes, half of the time with a field changed, and an output that
/// is about as long as what it writes.
pub fn sensible(random: &mut Random) -> TestCase {
    let mut instructions = listed(random.pick(&LISTINGS));
    if random.below(2) == 0 {
        change(random, &mut instructions);
    }
    let code = assembled(random, &instructions);
    let mut case = case_of(random, code);
    if random.below(80) == 0 {
        case.input = deep_input(random);
        return fitted(random, case.with_fuel(MODERATE_FUEL));
    }
    let fuel = MODERATE_FUEL.min(300 + moderate(random));
    fitted(random, case.with_fuel(fuel))
}

/// Changes one field of one instruction.
fn change(random: &mut Random, instructions: &mut [Instruction]) {
    let count = instructions.len();
    let changed = &mut instructions[random.below(count)];
    match random.below(8) {
        0 | 1 => changed.opcode = any_opcode(random),
        2 => changed.opcode = random.byte(),
        3 => changed.byte1 = random.pick(&[0, 1, 2, 255]),
        4 => changed.operand = changed.operand.wrapping_add(1),
        5 => changed.operand = any_operand(random),
        6 => changed.operand = random.below(count + 1) as u16,
        _ => changed.number = label(random) as u32,
    }
}
