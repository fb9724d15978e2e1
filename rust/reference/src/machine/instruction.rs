//! Instructions and their bytes.

/// "An instruction has 8 bytes"
pub const INSTRUCTION_BYTES: usize = 8;

/// "At most 4,128 instructions."
pub const INSTRUCTION_LIMIT: usize = 4_128;

/// The opcodes of the table.
pub mod opcode {
    pub const PUSH: u8 = 0;
    pub const GET: u8 = 1;
    pub const ADD: u8 = 2;
    pub const IFNOT: u8 = 3;
    pub const JUMP: u8 = 4;
    pub const SLIDE: u8 = 5;
    pub const DROP: u8 = 6;
    pub const LEAF_TAG: u8 = 7;
    pub const NODE_TAG: u8 = 8;
    pub const WRITE_NUMBER: u8 = 9;
    pub const READ_TAG: u8 = 10;
    pub const READ_NUMBER: u8 = 11;
    pub const CALL: u8 = 12;
    pub const RETURN: u8 = 13;
}

/// "opcode; byte 1; operand in 2–3; number in 4–7", whatever they are.
#[derive(Clone, Copy, Debug, PartialEq, Eq)]
pub struct Instruction {
    pub opcode: u8,
    pub byte1: u8,
    pub operand: u16,
    pub number: u32,
}

impl Instruction {
    /// The words above the base that it looks at, removes or hands on.
    pub fn words_needed(self) -> usize {
        match self.opcode {
            opcode::GET => usize::from(self.operand) + 1,
            opcode::ADD | opcode::SLIDE => 2,
            opcode::IFNOT | opcode::DROP | opcode::WRITE_NUMBER => 1,
            opcode::CALL | opcode::RETURN => usize::from(self.byte1),
            _ => 0,
        }
    }

    /// "Numbers of several bytes stand low byte first."
    pub fn from_bytes(bytes: [u8; INSTRUCTION_BYTES]) -> Instruction {
        let [opcode, byte1, b2, b3, b4, b5, b6, b7] = bytes;
        Instruction {
            opcode,
            byte1,
            operand: u16::from_le_bytes([b2, b3]),
            number: u32::from_le_bytes([b4, b5, b6, b7]),
        }
    }

    pub fn to_bytes(self) -> [u8; INSTRUCTION_BYTES] {
        let [b2, b3] = self.operand.to_le_bytes();
        let [b4, b5, b6, b7] = self.number.to_le_bytes();
        [self.opcode, self.byte1, b2, b3, b4, b5, b6, b7]
    }
}

/// The bytes of these instructions, one after another.
pub fn assemble(instructions: &[Instruction]) -> Vec<u8> {
    let bytes = instructions.iter().map(|one| one.to_bytes());
    bytes.collect::<Vec<_>>().concat()
}

/// "an address from 4,128 up, or without 8 whole bytes, holds no instruction"
pub fn instruction_at(code: &[u8], address: usize) -> Option<Instruction> {
    if address >= INSTRUCTION_LIMIT {
        return None;
    }
    let bytes = code.chunks_exact(INSTRUCTION_BYTES).nth(address)?;
    Some(Instruction::from_bytes(bytes.try_into().ok()?))
}

/// Instructions by name; "Unused fields are written zero".
pub mod mnemonic {
    use super::{opcode, Instruction};

    fn with(opcode: u8, byte1: u8, operand: u16, number: u32) -> Instruction {
        Instruction {
            opcode,
            byte1,
            operand,
            number,
        }
    }

    pub fn push(number: i32) -> Instruction {
        with(opcode::PUSH, 0, 0, number as u32)
    }

    pub fn get(word: u16) -> Instruction {
        with(opcode::GET, 0, word, 0)
    }

    pub fn add() -> Instruction {
        with(opcode::ADD, 0, 0, 0)
    }

    pub fn ifnot(address: u16) -> Instruction {
        with(opcode::IFNOT, 0, address, 0)
    }

    pub fn jump(address: u16) -> Instruction {
        with(opcode::JUMP, 0, address, 0)
    }

    pub fn slide() -> Instruction {
        with(opcode::SLIDE, 0, 0, 0)
    }

    pub fn drop_word() -> Instruction {
        with(opcode::DROP, 0, 0, 0)
    }

    pub fn leaf_tag() -> Instruction {
        with(opcode::LEAF_TAG, 0, 0, 0)
    }

    pub fn node_tag() -> Instruction {
        with(opcode::NODE_TAG, 0, 0, 0)
    }

    pub fn write_number() -> Instruction {
        with(opcode::WRITE_NUMBER, 0, 0, 0)
    }

    pub fn read_tag(address: u16) -> Instruction {
        with(opcode::READ_TAG, 0, address, 0)
    }

    pub fn read_number() -> Instruction {
        with(opcode::READ_NUMBER, 0, 0, 0)
    }

    pub fn call(entry: u16, arguments: u8) -> Instruction {
        with(opcode::CALL, arguments, entry, 0)
    }

    pub fn ret(kept: u8) -> Instruction {
        with(opcode::RETURN, kept, 0, 0)
    }
}
