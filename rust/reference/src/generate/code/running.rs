//! Codes drawn while they run: each instruction where control first comes to
//! it, so that its words are present, and each byte of input where it is read.

use crate::machine::{opcode, Instruction, TestCase};
use crate::random::Random;
use crate::sum::exact_sum;
use crate::tree::{LEAF_TAG, NODE_TAG};

use super::fuel::moderate;
use super::inputs::stray;
use super::instructions::{any_instruction, any_opcode, assembled};
use super::instructions::{instruction, number};

/// So many steps are drawn at most.
const STEPS: usize = 400;

/// So many words and calls are kept at most.
const ROOM: usize = 200;

/// Instructions that go on for a while. The input is whole, cut or longer; the
/// output has room, or nearly so.
pub fn running(random: &mut Random) -> TestCase {
    let mut walk = Walk::new(2 + random.below(60));
    for _ in 0..STEPS {
        if walk.step(random).is_none() {
            break;
        }
    }
    let count = walk.code.len();
    let undrawn = |random: &mut Random| any_instruction(random, count);
    let code: Vec<Instruction> = walk
        .code
        .iter()
        .map(|drawn| drawn.unwrap_or_else(|| undrawn(random)))
        .collect();
    let mut input = walk.input;
    match random.below(8) {
        0 => input.truncate(random.below(input.len() + 1)),
        1 => input.extend(stray(random)),
        _ => (),
    }
    let output = match random.below(8) {
        0 => random.below(walk.written + 1),
        1 => walk.written,
        _ => walk.written + random.below(200),
    };
    TestCase {
        code: assembled(random, &code),
        input,
        fuel: moderate(random).max(random.below(STEPS) as u64),
        output,
    }
}

/// A run so far: the code and the input as far as drawn, the bytes written,
/// the words, the present frame's base, and of each caller the address where
/// it goes on and its base.
struct Walk {
    code: Vec<Option<Instruction>>,
    input: Vec<u8>,
    written: usize,
    words: Vec<i32>,
    base: usize,
    callers: Vec<(usize, usize)>,
    address: usize,
}

impl Walk {
    fn new(count: usize) -> Walk {
        Walk {
            code: vec![None; count],
            input: Vec::new(),
            written: 0,
            words: Vec::new(),
            base: 0,
            callers: Vec::new(),
            address: 0,
        }
    }

    /// The words above the base.
    fn above(&self) -> usize {
        self.words.len() - self.base
    }

    /// The sum of the two upper words; none if they aren't above the base or
    /// their sum is out of range.
    fn sum(&self) -> Option<i32> {
        match self.words[self.base..] {
            [.., left, right] => exact_sum(left, right),
            _ => None,
        }
    }

    /// Goes on by an instruction; none where the run stops.
    fn step(&mut self, random: &mut Random) -> Option<()> {
        let there = *self.code.get(self.address)?;
        let instruction = there.unwrap_or_else(|| self.drawn(random));
        self.code[self.address] = Some(instruction);
        let full = self.words.len() > ROOM || self.callers.len() > ROOM;
        if full || instruction.words_needed() > self.above() {
            return None;
        }
        self.address = self.follow(random, instruction)?;
        Some(())
    }

    /// An instruction that can be performed here, but for one in 100.
    fn drawn(&self, random: &mut Random) -> Instruction {
        if random.below(100) == 0 {
            return any_instruction(random, self.code.len());
        }
        loop {
            let opcode = any_opcode(random);
            let mut made = instruction(random, opcode, self.code.len());
            match opcode {
                opcode::GET if self.above() > 0 => {
                    made.operand = random.below(self.above()) as u16;
                }
                opcode::CALL => made.byte1 = random.below(self.above().min(4) + 1) as u8,
                opcode::RETURN => made.byte1 = random.below(2) as u8,
                _ => (),
            }
            if made.words_needed() <= self.above() && self.goes_on(random, made) {
                return made;
            }
        }
    }

    /// Whether an instruction goes to an address with an instruction. The first
    /// frame's return and a sum out of range are let through at times.
    fn goes_on(&self, random: &mut Random, made: Instruction) -> bool {
        let next = self.address + 1;
        let to = usize::from(made.operand);
        let count = self.code.len();
        let last = next == count && random.below(8) > 0;
        match made.opcode {
            opcode::JUMP | opcode::CALL => to < count && to != self.address,
            opcode::IFNOT | opcode::READ_TAG => to < count && !last,
            opcode::RETURN => !self.callers.is_empty() || random.below(16) == 0,
            opcode::ADD => !last && (self.sum().is_some() || random.below(16) == 0),
            _ => !last,
        }
    }

    /// The next address, once the instruction is performed; none at the first
    /// frame's return and at a sum out of range.
    fn follow(&mut self, random: &mut Random, instruction: Instruction) -> Option<usize> {
        let next = self.address + 1;
        let operand = usize::from(instruction.operand);
        match instruction.opcode {
            opcode::PUSH => self.words.push(instruction.number as i32),
            opcode::GET => self.words.push(self.words[self.base + operand]),
            opcode::ADD => {
                let sum = self.sum()?;
                self.in_place_of_two(sum);
            }
            opcode::SLIDE => self.in_place_of_two(self.words[self.words.len() - 1]),
            opcode::IFNOT if self.words.pop() != Some(0) => return Some(operand),
            opcode::JUMP => return Some(operand),
            opcode::DROP => drop(self.words.pop()),
            opcode::LEAF_TAG | opcode::NODE_TAG => self.written += 1,
            opcode::WRITE_NUMBER => {
                self.words.pop();
                self.written += 4;
            }
            opcode::READ_TAG if self.read_tag(random) == NODE_TAG => return Some(operand),
            opcode::READ_NUMBER => self.read_number(random),
            opcode::CALL => {
                self.callers.push((next, self.base));
                self.base = self.words.len() - usize::from(instruction.byte1);
                return Some(operand);
            }
            opcode::RETURN if instruction.byte1 > 1 => return None,
            opcode::RETURN => return self.ret(instruction.byte1),
            _ => (),
        }
        Some(next)
    }

    /// Puts one word in the place of the two upper ones.
    fn in_place_of_two(&mut self, word: i32) {
        self.words.truncate(self.words.len() - 2);
        self.words.push(word);
    }

    fn read_tag(&mut self, random: &mut Random) -> u8 {
        let tag = random.pick(&[LEAF_TAG, NODE_TAG]);
        self.input.push(tag);
        tag
    }

    fn read_number(&mut self, random: &mut Random) {
        let label = number(random);
        self.input.extend(label.to_le_bytes());
        self.words.push(label);
    }

    fn ret(&mut self, kept: u8) -> Option<usize> {
        let top = self.words.last().copied();
        self.words.truncate(self.base);
        self.words.extend(top.filter(|_| kept == 1));
        let (address, base) = self.callers.pop()?;
        self.base = base;
        Some(address)
    }
}
