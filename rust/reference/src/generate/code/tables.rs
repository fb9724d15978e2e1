//! Where a run can stop, by document 01 and N3.

use crate::machine::{opcode, Cause, Mark};

/// "14 fuel used up"
pub const FUEL_USED_UP: u8 = 14;

/// "19 instruction that can't be performed"
const NOT_PERFORMED: u8 = 19;

/// The opcodes that need words above the frame's base.
const NEEDING: [u8; 8] = [
    opcode::GET,
    opcode::ADD,
    opcode::IFNOT,
    opcode::SLIDE,
    opcode::DROP,
    opcode::WRITE_NUMBER,
    opcode::CALL,
    opcode::RETURN,
];

/// The opcodes that leave a word more. A return with 1 takes a word of its own
/// frame, cuts it and pushes that word, so it never is surplus.
const PUSHING: [u8; 3] = [opcode::PUSH, opcode::GET, opcode::READ_NUMBER];

/// The marks that are not for words, each with its opcode.
const OTHERS: [(u8, Cause); 13] = [
    (opcode::LEAF_TAG, Cause::OutputFull),
    (opcode::NODE_TAG, Cause::OutputFull),
    (opcode::WRITE_NUMBER, Cause::OutputFull),
    (opcode::WRITE_NUMBER, Cause::OutputShort),
    (opcode::READ_TAG, Cause::InputEnded),
    (opcode::READ_TAG, Cause::NotATag),
    (opcode::READ_NUMBER, Cause::InputEnded),
    (opcode::READ_NUMBER, Cause::LabelNotWhole),
    (opcode::CALL, Cause::CallsOpen),
    (opcode::ADD, Cause::SumOutOfRange),
    (opcode::RETURN, Cause::ReturnByte),
    (opcode::RETURN, Cause::EndedWithNone),
    (opcode::RETURN, Cause::EndedWithOne),
];

/// The causes without an opcode.
const ALONE: [Cause; 6] = [
    Cause::NoFuel,
    Cause::FuelUsedUp,
    Cause::PastTheEnd,
    Cause::InstructionNotWhole,
    Cause::AddressTooHigh,
    Cause::NotAnOpcode,
];

/// Hidden by a 19 for words: read number with 16,384 words and no label, write
/// number with no word and no room, call without its words and 1,024 open, add
/// of a sum out of range with a word below the frame's base. The tags need and
/// push no words, so nothing stands before their 15 to 17.
const BEHIND_WORDS: [(u8, Cause); 6] = [
    (opcode::READ_NUMBER, Cause::InputEnded),
    (opcode::READ_NUMBER, Cause::LabelNotWhole),
    (opcode::WRITE_NUMBER, Cause::OutputFull),
    (opcode::WRITE_NUMBER, Cause::OutputShort),
    (opcode::CALL, Cause::CallsOpen),
    (opcode::ADD, Cause::SumOutOfRange),
];

/// Every mark where a run can stop, 13 aside.
pub fn reachable() -> Vec<Mark> {
    let mut marks: Vec<Mark> = ALONE.into_iter().map(Mark::alone).collect();
    for opcode in NEEDING {
        marks.push(Mark::at(opcode, Cause::MissingWords));
        marks.push(Mark::at(opcode, Cause::WordsBelowBase));
    }
    let pushing = PUSHING.map(|opcode| Mark::at(opcode, Cause::SurplusWords));
    marks.extend(pushing);
    marks.extend(OTHERS.map(|(opcode, cause)| Mark::at(opcode, cause)));
    marks
}

/// Every pair of a refusal reported and a mark hidden by it that can occur:
/// "Fuel is looked at first", so 14 stands before each refusal; "At one
/// instruction 19 comes before 15 to 18", and before 21.
pub fn hidden() -> Vec<(u8, Mark)> {
    let refused = |mark: &Mark| mark.number().is_some_and(|number| number != FUEL_USED_UP);
    let behind_fuel = reachable().into_iter().filter(refused);
    let mut pairs: Vec<(u8, Mark)> = behind_fuel.map(|mark| (FUEL_USED_UP, mark)).collect();
    let behind_words = BEHIND_WORDS.map(|(opcode, cause)| Mark::at(opcode, cause));
    pairs.extend(behind_words.map(|mark| (NOT_PERFORMED, mark)));
    pairs
}
