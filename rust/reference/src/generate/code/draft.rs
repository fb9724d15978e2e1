//! Drafts: code that is gone through to its end whatever stands after it. A
//! draft counts along what stands where control comes to its end.

use crate::generate::label;
use crate::generate::sums::fitting;
use crate::machine::mnemonic::{add, call, drop_word, get, ifnot, jump, leaf_tag, node_tag};
use crate::machine::mnemonic::{push, read_number, read_tag, ret, slide, write_number};
use crate::machine::{Instruction, TestCase};
use crate::random::Random;
use crate::tree::{LEAF_TAG, NODE_TAG};

use super::fuel::MODERATE_FUEL;
use super::instructions::{any_instruction, assembled};

mod loops;

/// The code, the bytes that it reads and the number of those that it writes,
/// the words of the whole stack and those above the frame's base, and the
/// calls open.
pub struct Draft {
    pub code: Vec<Instruction>,
    pub input: Vec<u8>,
    pub written: usize,
    pub words: usize,
    pub above: usize,
    pub open: usize,
}

impl Draft {
    pub fn new() -> Draft {
        Draft {
            code: Vec::new(),
            input: Vec::new(),
            written: 0,
            words: 0,
            above: 0,
            open: 1,
        }
    }

    /// A few detours, and no words.
    pub fn begun(random: &mut Random) -> Draft {
        let mut draft = Draft::new();
        draft.detours(random);
        draft
    }

    /// The address of the next instruction.
    pub fn here(&self) -> u16 {
        self.code.len() as u16
    }

    pub fn put(&mut self, instruction: Instruction) {
        self.code.push(instruction);
    }

    /// An instruction that pushes a word.
    fn pushing(&mut self, instruction: Instruction) {
        self.put(instruction);
        self.words += 1;
        self.above += 1;
    }

    /// An instruction that leaves a word less.
    fn popping(&mut self, instruction: Instruction) {
        self.put(instruction);
        self.words -= 1;
        self.above -= 1;
    }

    /// A word: a number, another word, or a label.
    pub fn word(&mut self, random: &mut Random) {
        match random.below(4) {
            0 if self.above > 0 => self.pushing(get(random.below(self.above) as u16)),
            1 => {
                self.input.extend(label(random).to_le_bytes());
                self.pushing(read_number());
            }
            _ => self.pushing(push(label(random))),
        }
    }

    /// This word: a number or a label.
    pub fn number(&mut self, random: &mut Random, number: i32) {
        if random.below(2) == 0 {
            self.pushing(push(number));
        } else {
            self.input.extend(number.to_le_bytes());
            self.pushing(read_number());
        }
    }

    pub fn numbers(&mut self, random: &mut Random, (left, right): (i32, i32)) {
        self.number(random, left);
        self.number(random, right);
    }

    /// An add of the two upper words, whose sum fits.
    pub fn add(&mut self) {
        self.popping(add());
    }

    pub fn words(&mut self, random: &mut Random, count: usize) {
        for _ in 0..count {
            self.word(random);
        }
    }

    /// A call of what stands next.
    pub fn call(&mut self, arguments: usize) {
        self.put(call(self.here() + 1, arguments as u8));
        self.above = arguments;
        self.open += 1;
    }

    /// Up to 3 detours, which have no more than 20 instructions.
    pub fn detours(&mut self, random: &mut Random) {
        for _ in 0..random.below(4) {
            self.detour(random);
        }
    }

    /// Some instructions that leave the words as they are.
    fn detour(&mut self, random: &mut Random) {
        match random.below(9) {
            0 => self.jump_over(random),
            1 => self.call_and_return(random),
            2 => self.write_tag(random),
            3 => self.read_tag(random),
            4 => {
                self.word(random);
                self.popping(drop_word());
            }
            5 => {
                self.word(random);
                self.popping(write_number());
                self.written += 4;
            }
            6 => {
                self.word(random);
                self.popping(ifnot(self.here() + 1));
            }
            7 => {
                self.words(random, 2);
                self.popping(slide());
                self.popping(drop_word());
            }
            _ => {
                let pair = fitting(random);
                self.numbers(random, pair);
                self.add();
                self.popping(drop_word());
            }
        }
    }

    fn jump_over(&mut self, random: &mut Random) {
        let skipped = random.below(3);
        self.put(jump(self.here() + 1 + skipped as u16));
        for _ in 0..skipped {
            self.put(any_instruction(random, self.code.len()));
        }
    }

    /// A call of a function that returns at once, with or without a word.
    fn call_and_return(&mut self, random: &mut Random) {
        let here = self.here();
        self.put(call(here + 2, 0));
        if random.below(2) == 0 {
            self.put(jump(here + 3));
            self.put(ret(0));
        } else {
            self.put(jump(here + 4));
            self.pushing(push(label(random)));
            self.put(ret(1));
            self.popping(drop_word());
        }
    }

    fn write_tag(&mut self, random: &mut Random) {
        self.put(random.pick(&[leaf_tag(), node_tag()]));
        self.written += 1;
    }

    /// A tag is read, and control goes on either way.
    fn read_tag(&mut self, random: &mut Random) {
        self.input.push(random.pick(&[LEAF_TAG, NODE_TAG]));
        self.put(read_tag(self.here() + 1));
    }

    /// Control goes to the address, which stands elsewhere.
    pub fn go_to(&mut self, random: &mut Random, address: usize) {
        let address = address as u16;
        match random.below(4) {
            0 => {
                self.pushing(push(label(random).max(1)));
                self.popping(ifnot(address));
            }
            1 => {
                self.input.push(NODE_TAG);
                self.put(read_tag(address));
            }
            2 => {
                self.put(call(address, 0));
                self.above = 0;
                self.open += 1;
            }
            _ => self.put(jump(address)),
        }
    }

    /// Instructions up to the address, which stands further on.
    pub fn straight_to(&mut self, random: &mut Random, address: usize) {
        while self.code.len() < address {
            self.pushing(push(label(random)));
        }
    }

    /// A few instructions that may not be gone through.
    pub fn strays(&mut self, random: &mut Random) {
        for _ in 0..random.below(5) {
            self.put(any_instruction(random, self.code.len()));
        }
    }

    /// The case with this code, so many bytes left at its end and so many free.
    pub fn case(&self, random: &mut Random, left: &[u8], free: usize) -> TestCase {
        TestCase {
            code: assembled(random, &self.code),
            input: [&self.input, left].concat(),
            fuel: MODERATE_FUEL,
            output: self.written + free,
        }
    }
}
