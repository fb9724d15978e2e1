//! Every form that an instruction of a program's code can have.

use std::collections::BTreeSet;

use reference::generate::ordered;
use reference::machine::opcode;
use reference::{instruction_at, Instruction, Random};

use super::*;

/// An instruction's opcode; its byte 1; and whether its operand goes back,
/// here or forth, for those with an address, or else is 0.
type Form = (u8, u8, i8);

fn form(address: usize, instruction: Instruction) -> Form {
    let Instruction {
        opcode,
        byte1,
        operand,
        ..
    } = instruction;
    let operand = usize::from(operand);
    let direction = match opcode {
        opcode::IFNOT | opcode::JUMP | opcode::READ_TAG | opcode::CALL => {
            operand.cmp(&address) as i8
        }
        opcode::GET => 0,
        _ => operand.cmp(&0) as i8,
    };
    (opcode, byte1, direction)
}

/// All forms that the templates have: branches go forth; calls go back, forth,
/// or to themselves, with 0 to 4 arguments, but one with arguments stands
/// after them, so that it is no function's first instruction.
fn forms() -> BTreeSet<Form> {
    let plain = [
        opcode::PUSH,
        opcode::GET,
        opcode::ADD,
        opcode::SLIDE,
        opcode::DROP,
        opcode::LEAF_TAG,
        opcode::NODE_TAG,
        opcode::WRITE_NUMBER,
        opcode::READ_NUMBER,
    ];
    let branches = [opcode::IFNOT, opcode::JUMP, opcode::READ_TAG];
    let calls = (0..=4).flat_map(|arguments| [-1, 1].map(|to| (opcode::CALL, arguments, to)));
    let returns = (0..=1).map(|kept| (opcode::RETURN, kept, 0));
    let mut forms: BTreeSet<Form> = plain.into_iter().map(|opcode| (opcode, 0, 0)).collect();
    forms.extend(branches.map(|opcode| (opcode, 0, 1)));
    forms.extend(calls.chain([(opcode::CALL, 0, 0)]).chain(returns));
    forms
}

/// The instructions of code, with their addresses.
fn instructions(code: &[u8]) -> impl Iterator<Item = (usize, Instruction)> + '_ {
    (0..code.len() / 8).map(|address| {
        let found = instruction_at(code, address);
        (address, found.expect("an instruction"))
    })
}

/// These and no others.
#[test]
fn every_form_of_instruction_comes_up() {
    let mut random = Random::new(320);
    let (mut seen, mut words) = (BTreeSet::new(), BTreeSet::new());
    for _ in 0..300 {
        let file = file(&ordered::any_program(&mut random));
        let code = TRANSLATE.reference_answer(&file).expect("code");
        assert!(hogvax::translate(&file).as_ref() == Ok(&code));
        for (address, instruction) in instructions(&code) {
            seen.insert(form(address, instruction));
            if instruction.opcode == opcode::GET {
                words.insert(instruction.operand);
            }
        }
    }
    assert_eq!(seen, forms());
    assert!(words.iter().copied().eq(0..=words.len() as u16 - 1));
    assert!((10..=16).contains(&words.len()), "{words:?}");
}

/// "Unused fields are written zero": a number has push alone, an operand those
/// with an address and get, a byte 1 call and return.
#[test]
fn unused_fields_are_zero() {
    let mut random = Random::new(321);
    for _ in 0..300 {
        let code = hogvax::translate(&file(&ordered::any_program(&mut random)));
        for (address, instruction) in instructions(&code.expect("code")) {
            let (_, byte1, direction) = form(address, instruction);
            let opcode = instruction.opcode;
            assert!(instruction.number == 0 || opcode == opcode::PUSH);
            assert!(byte1 == 0 || [opcode::CALL, opcode::RETURN].contains(&opcode));
            let addressed = [opcode::IFNOT, opcode::JUMP, opcode::READ_TAG, opcode::CALL];
            assert!(direction == 0 || addressed.contains(&opcode));
        }
    }
}
