//! Cases that stop at a given mark.

use crate::generate::sums::{leaving, split};
use crate::generate::tag_like_bytes;
use crate::machine::mnemonic::{push, ret};
use crate::machine::{opcode, Cause, Instruction, Mark, TestCase};
use crate::machine::{INSTRUCTION_BYTES, INSTRUCTION_LIMIT, OPEN_LIMIT, VALUE_WORDS};
use crate::random::Random;

use super::draft::Draft;
use super::fuel::{units_within, MODERATE_FUEL};
use super::inputs::input;
use super::instructions::{any_operand, instruction};
use super::tables::reachable;

/// A case that stops at that mark, which is one of the reachable ones.
pub fn aimed(random: &mut Random, mark: Mark) -> TestCase {
    assert!(reachable().contains(&mark), "no run stops at {mark:?}");
    match (mark.opcode, mark.cause) {
        (None, Cause::NoFuel) => with_another(random).with_fuel(0),
        (None, Cause::FuelUsedUp) => fuel_used_up(random),
        (None, Cause::PastTheEnd) => past_the_end(random),
        (None, Cause::InstructionNotWhole) => instruction_not_whole(random),
        (None, Cause::AddressTooHigh) => address_too_high(random),
        (None, _) => not_an_opcode(random),
        (Some(opcode), cause) => at_opcode(random, opcode, cause),
    }
}

/// A case aimed at a mark that is not for fuel.
fn with_another(random: &mut Random) -> TestCase {
    let others: Vec<Mark> = reachable()
        .into_iter()
        .filter(|mark| !matches!(mark.cause, Cause::NoFuel | Cause::FuelUsedUp))
        .collect();
    let other = random.pick(&others);
    aimed(random, other)
}

fn fuel_used_up(random: &mut Random) -> TestCase {
    loop {
        let case = with_another(random);
        let units = units_within(&case, MODERATE_FUEL);
        if units > 1 {
            // The last unit may be a return's that ends the run.
            return case.with_fuel(1 + random.below(units as usize - 1) as u64);
        }
    }
}

/// What a draft's case has left to read and to write.
fn finished(random: &mut Random, draft: &Draft) -> TestCase {
    let (left, free) = (input(random), random.below(8));
    draft.case(random, &left, free)
}

/// Control goes on or elsewhere to an address with no byte of code.
fn past_the_end(random: &mut Random) -> TestCase {
    let mut draft = Draft::begun(random);
    if random.below(2) == 0 {
        return finished(random, &draft);
    }
    // Two instructions and four strays at most are to come.
    let first = draft.code.len() + 6;
    let address = match random.below(2) {
        0 => first + random.below(8),
        _ => first.max(usize::from(any_operand(random))),
    };
    draft.go_to(random, address);
    draft.strays(random);
    finished(random, &draft)
}

/// Control goes on to the last bytes.
fn instruction_not_whole(random: &mut Random) -> TestCase {
    let mut draft = Draft::begun(random);
    if random.below(8) == 0 {
        draft.straight_to(random, INSTRUCTION_LIMIT);
    }
    let rest = 1 + random.below(INSTRUCTION_BYTES - 1);
    let mut case = finished(random, &draft);
    case.code.extend_from_slice(&ret(0).to_bytes()[..rest]);
    case
}

/// Control goes on past address 4,127, or elsewhere to one from 4,128 up.
fn address_too_high(random: &mut Random) -> TestCase {
    let mut draft = Draft::begun(random);
    let count = INSTRUCTION_LIMIT + 1 + random.below(40);
    let address = INSTRUCTION_LIMIT - 1 + random.below(count - INSTRUCTION_LIMIT + 1);
    match random.below(4) {
        0 => draft.straight_to(random, INSTRUCTION_LIMIT),
        _ => draft.go_to(random, address),
    }
    draft.code.resize(count, push(1));
    finished(random, &draft)
}

fn not_an_opcode(random: &mut Random) -> TestCase {
    let mut draft = Draft::begun(random);
    let first = opcode::RETURN + 1;
    let any = random.byte();
    let opcode = random.pick(&[first, first | any, 0x80 | any]);
    let made = instruction(random, opcode, draft.code.len());
    draft.put(made);
    draft.strays(random);
    finished(random, &draft)
}

/// A case that stops at an instruction with this opcode.
fn at_opcode(random: &mut Random, opcode: u8, cause: Cause) -> TestCase {
    let mut draft = Draft::begun(random);
    let last = match cause {
        Cause::EndedWithNone => ended(random, &mut draft, 0),
        Cause::EndedWithOne => ended(random, &mut draft, 1),
        Cause::ReturnByte => return_byte(random, &mut draft),
        Cause::MissingWords => missing(random, &mut draft, opcode, false),
        Cause::WordsBelowBase if opcode == opcode::ADD && random.below(2) == 0 => {
            out_of_range_below_base(random, &mut draft)
        }
        Cause::WordsBelowBase => missing(random, &mut draft, opcode, true),
        Cause::SurplusWords => surplus(random, &mut draft, opcode),
        Cause::CallsOpen => calls_open(random, &mut draft),
        Cause::SumOutOfRange => out_of_range(random, &mut draft),
        _ => words_enough(random, &mut draft, opcode),
    };
    draft.put(last);
    draft.strays(random);
    let (left, free) = (left(random, opcode, cause), free(random, opcode, cause));
    draft.case(random, &left, free)
}

/// What is left to read. With a 19 at read number there may be no label.
fn left(random: &mut Random, opcode: u8, cause: Cause) -> Vec<u8> {
    let length = match cause {
        Cause::InputEnded => 0,
        Cause::LabelNotWhole => 1 + random.below(3),
        Cause::NotATag => {
            let bad = random.pick(&[0, 3, 4, 127, 128, 255]);
            return [vec![bad], input(random)].concat();
        }
        _ if opcode == opcode::READ_NUMBER => random.below(6),
        _ => return input(random),
    };
    tag_like_bytes(random, length)
}

/// What is free to write. With a 19 at write number there may be no room.
fn free(random: &mut Random, opcode: u8, cause: Cause) -> usize {
    match cause {
        Cause::OutputFull => 0,
        Cause::OutputShort => 1 + random.below(3),
        _ if opcode == opcode::WRITE_NUMBER => random.below(6),
        _ => random.below(8),
    }
}

/// The first frame's return.
fn ended(random: &mut Random, draft: &mut Draft, kept: u8) -> Instruction {
    let words = usize::from(kept) + random.below(3);
    draft.words(random, words);
    ret(kept)
}

fn return_byte(random: &mut Random, draft: &mut Draft) -> Instruction {
    let words = random.below(4);
    draft.words(random, words);
    if random.below(2) == 0 {
        draft.call(random.below(words + 1));
    }
    let any = random.byte();
    ret(random.pick(&[2, 3, 2 | any, 255]))
}

/// An instruction with this opcode that has the words it needs.
fn words_enough(random: &mut Random, draft: &mut Draft, opcode: u8) -> Instruction {
    let words = 1 + random.below(3);
    draft.words(random, words);
    instruction(random, opcode, draft.code.len())
}

/// An instruction with this opcode that needs more words than stand above the
/// base; the whole stack has them or not.
fn missing(random: &mut Random, draft: &mut Draft, opcode: u8, below_base: bool) -> Instruction {
    let needed = need(random, opcode, below_base);
    let above = random.below(needed.min(20));
    let below = match below_base {
        true => needed - above + random.below(3),
        false => random.below((needed - above).min(20)),
    };
    draft.words(random, below);
    let open = OPEN_LIMIT - random.below(3);
    match random.below(4) {
        0 if opcode == opcode::CALL => {
            draft.calls_by_tags(random, open - draft.open, 0, 0);
            draft.words(random, above);
        }
        1 if below == 0 => draft.words(random, above),
        2 => {
            draft.words(random, above);
            draft.call(above);
        }
        _ => {
            draft.call(0);
            draft.words(random, above);
        }
    }
    needing(random, opcode, needed, draft.code.len())
}

/// So many words are to be needed by an instruction with this opcode. A stack
/// that is to have them is small.
fn need(random: &mut Random, opcode: u8, below_base: bool) -> usize {
    let few = 1 + random.below(4);
    let many = 1 + usize::from(random.byte());
    let any = 1 + usize::from(any_operand(random));
    match opcode {
        opcode::ADD | opcode::SLIDE => 2,
        opcode::CALL => random.pick(&[few, few, many.min(255)]),
        opcode::GET if below_base => random.pick(&[few, few, many]),
        opcode::GET => random.pick(&[few, few, any]),
        _ => 1,
    }
}

/// An instruction with this opcode that needs so many words.
fn needing(random: &mut Random, opcode: u8, needed: usize, count: usize) -> Instruction {
    let mut made = instruction(random, opcode, count);
    match opcode {
        opcode::GET => made.operand = (needed - 1) as u16,
        opcode::CALL | opcode::RETURN => made.byte1 = needed as u8,
        _ => (),
    }
    made
}

/// An instruction with this opcode that pushes a word more than there may be.
fn surplus(random: &mut Random, draft: &mut Draft, opcode: u8) -> Instruction {
    draft.fill_to(random, VALUE_WORDS);
    let mut made = instruction(random, opcode, draft.code.len());
    if opcode == opcode::GET {
        made.operand = random.below(draft.above) as u16;
    }
    made
}

/// An add whose sum is out of range. The two numbers stand there, or have been
/// handed on to a call, or the left one is itself a sum.
fn out_of_range(random: &mut Random, draft: &mut Draft) -> Instruction {
    let (left, right) = leaving(random);
    let below = random.below(3);
    draft.words(random, below);
    match random.below(4) {
        0 => {
            let addends = split(random, i64::from(left));
            draft.numbers(random, addends);
            draft.add();
            draft.number(random, right);
        }
        1 => {
            draft.numbers(random, (left, right));
            draft.call(2);
        }
        _ => draft.numbers(random, (left, right)),
    }
    instruction(random, opcode::ADD, draft.code.len())
}

/// An add whose sum would be out of range, with one or both words below the
/// base.
fn out_of_range_below_base(random: &mut Random, draft: &mut Draft) -> Instruction {
    let pair = leaving(random);
    draft.numbers(random, pair);
    draft.call(random.below(2));
    instruction(random, opcode::ADD, draft.code.len())
}

/// A call more than there may be.
fn calls_open(random: &mut Random, draft: &mut Draft) -> Instruction {
    draft.open_to(random, OPEN_LIMIT);
    let mut made = instruction(random, opcode::CALL, draft.code.len());
    made.byte1 = random.below(draft.above + 1) as u8;
    made
}
