//! Every value of a byte or an operand.

use reference::assemble;
use reference::machine::mnemonic::{call, get, jump, push, read_tag, ret};
use reference::machine::{opcode, INSTRUCTION_LIMIT};

use super::*;

fn case(code: Vec<u8>, input: &[u8], fuel: u64, output: usize) -> TestCase {
    TestCase {
        code,
        input: input.to_vec(),
        fuel,
        output,
    }
}

/// Opcodes 0 to 13 are performed where their words and bytes are there; those
/// above give 19.
#[test]
fn every_byte_as_an_opcode() {
    let mut lent = Lent::new();
    for byte in 0..=255 {
        let mut code = assemble(&[push(1), push(1), ret(0)]);
        code[16] = byte;
        let gave = lent.answer(&case(code, &[2; 4], 3, 4));
        let performed = byte <= opcode::RETURN;
        assert_eq!(gave.units(), if performed { 3 } else { 2 }, "{byte}");
        assert_eq!(gave.number == 19, !performed, "{byte}");
    }
}

/// A leaf goes on, a node goes to the operand, and any other byte is no tag.
#[test]
fn every_byte_as_a_tag() {
    let mut lent = Lent::new();
    for byte in 0..=255 {
        let code = assemble(&[read_tag(3), push(1), ret(1), push(2), ret(1)]);
        let gave = lent.answer(&case(code, &[byte, 1], 9, 0));
        let told = match byte {
            1 | 2 => (0, u64::from(byte), 1),
            _ => (16, 0, 0),
        };
        assert_eq!((gave.number, gave.word(), gave.read()), told, "{byte}");
    }
}

/// A return keeps 0 or 1 words, in the first frame and in another.
#[test]
fn every_byte_of_a_return() {
    let mut lent = Lent::new();
    for byte in 0..=255 {
        let first = assemble(&[push(7), push(8), ret(byte)]);
        let inner = assemble(&[push(8), call(3, 1), ret(0), push(7), ret(byte)]);
        for (code, units) in [(first, 3), (inner, 5)] {
            let gave = lent.answer(&case(code, &[], 9, 0));
            let refused = byte > 1;
            assert_eq!(gave.number, if refused { 19 } else { 0 }, "{byte}");
            assert!(refused || gave.units() == units, "{byte}");
        }
    }
}

/// A call needs its arguments, and hands them on: the first of them is what it
/// gives back.
#[test]
fn every_number_of_arguments() {
    let mut lent = Lent::new();
    for arguments in 0..=255_u8 {
        for words in [0, 1, 100, 255, 256] {
            let mut instructions: Vec<_> = (0..words).map(push).collect();
            let here = words as u16;
            instructions.extend([call(here + 2, arguments), ret(1), get(0), ret(1)]);
            let gave = lent.answer(&case(assemble(&instructions), &[], 999, 0));
            let first = words - i32::from(arguments);
            let told = match arguments {
                1.. if first >= 0 => (0, first as u64, words as u64 + 4),
                0 => (19, 0, words as u64 + 1),
                _ => (19, 0, words as u64),
            };
            assert_eq!((gave.number, gave.word(), gave.units()), told);
        }
    }
}

/// get with every operand, over 300 words; jump with every operand, in code
/// with 5,000 returns.
#[test]
fn every_operand() {
    let mut lent = Lent::new();
    let mut instructions: Vec<_> = (0..300).map(push).collect();
    instructions.extend([get(0), ret(1)]);
    let mut getting = case(assemble(&instructions), &[], 999, 0);
    let mut jumping = case(assemble(&[ret(0); 5_000]), &[], 2, 0);
    jumping.code[..8].copy_from_slice(&jump(0).to_bytes());
    for operand in 0..=u16::MAX {
        let bytes = operand.to_le_bytes();
        getting.code[8 * 300 + 2..][..2].copy_from_slice(&bytes);
        jumping.code[2..4].copy_from_slice(&bytes);
        let gave = lent.call_into(&getting);
        let told = match operand {
            0..300 => (0, u64::from(operand)),
            _ => (19, 0),
        };
        assert_eq!((gave.number, gave.word()), told, "get {operand}");
        let gave = lent.call_into(&jumping);
        let told = match usize::from(operand) {
            0 => 14,
            1..INSTRUCTION_LIMIT => 0,
            _ => 19,
        };
        assert_eq!(gave.number, told, "jump {operand}");
    }
}
