//! A plain stream machine in safe Rust: the same lent buffers, the same tests
//! in the same order, the same answers.

use hogvax::{Ran, Refused};

pub const VALUE_WORDS: usize = 16_384;
pub const RETURN_WORDS: usize = 2_048;
const MOST_OPEN: usize = 1_024;
const MOST_INSTRUCTIONS: usize = 4_128;

const SPACE_TOO_SHORT: u32 = 13;
const FUEL_USED_UP: u32 = 14;
const INPUT_ENDED: u32 = 15;
const NOT_A_TAG: u32 = 16;
const OUTPUT_FULL: u32 = 17;
const TOO_MANY_CALLS: u32 = 18;
const CANNOT_PERFORM: u32 = 19;
const OUT_OF_RANGE: u32 = 21;

const LEAF_TAG: u8 = 1;
const NODE_TAG: u8 = 2;

/// The run ended with a number, or was refused.
enum Stop {
    Ended(u32),
    Refused(u32),
}

type Performed = Result<(), Stop>;

fn refuse_if(condition: bool, number: u32) -> Performed {
    match condition {
        true => Err(Stop::Refused(number)),
        false => Ok(()),
    }
}

struct Instruction {
    opcode: u8,
    byte1: u8,
    operand: u16,
    number: u32,
}

impl Instruction {
    fn from_bytes(bytes: [u8; 8]) -> Instruction {
        let [opcode, byte1, b2, b3, b4, b5, b6, b7] = bytes;
        Instruction {
            opcode,
            byte1,
            operand: u16::from_le_bytes([b2, b3]),
            number: u32::from_le_bytes([b4, b5, b6, b7]),
        }
    }
}

struct Machine<'a> {
    input: &'a [u8],
    output: &'a mut [u8],
    values: &'a mut [u32],
    returns: &'a mut [u64],
    /// Of the next instruction.
    address: usize,
    /// The words of all frames, and those below the present one.
    top: usize,
    base: usize,
    /// Calls open, the first frame counted.
    open: usize,
    read: usize,
    written: usize,
}

impl<'a> Machine<'a> {
    fn new(
        input: &'a [u8],
        output: &'a mut [u8],
        values: &'a mut [u32],
        returns: &'a mut [u64],
    ) -> Machine<'a> {
        Machine {
            input,
            output,
            values,
            returns,
            address: 0,
            top: 0,
            base: 0,
            open: 1,
            read: 0,
            written: 0,
        }
    }

    fn perform(&mut self, instruction: Instruction) -> Performed {
        let operand = usize::from(instruction.operand);
        match instruction.opcode {
            0 => self.push(instruction.number),
            1 => self.get(operand),
            2 => self.add(),
            3 => self.ifnot(operand),
            4 => self.jump(operand),
            5 => self.slide(),
            6 => self.drop_word(),
            7 => self.write([LEAF_TAG]),
            8 => self.write([NODE_TAG]),
            9 => self.write_number(),
            10 => self.read_tag(operand),
            11 => self.read_number(),
            12 => self.call(operand, instruction.byte1.into()),
            13 => self.give_back(instruction.byte1.into()),
            _ => Err(Stop::Refused(CANNOT_PERFORM)),
        }
    }

    /// Refuses if fewer words stand above the base.
    fn needs(&self, words: usize) -> Performed {
        refuse_if(self.top - self.base < words, CANNOT_PERFORM)
    }

    /// Refuses if no word more may stand.
    fn needs_room(&self) -> Performed {
        refuse_if(self.top >= VALUE_WORDS, CANNOT_PERFORM)
    }

    fn push(&mut self, word: u32) -> Performed {
        self.needs_room()?;
        self.values[self.top] = word;
        self.top += 1;
        Ok(())
    }

    /// A word that stands.
    fn pop(&mut self) -> u32 {
        self.top -= 1;
        self.values[self.top]
    }

    fn get(&mut self, word: usize) -> Performed {
        self.needs(word + 1)?;
        self.push(self.values[self.base + word])
    }

    fn add(&mut self) -> Performed {
        self.needs(2)?;
        let right = self.values[self.top - 1] as i32;
        let left = self.values[self.top - 2] as i32;
        let Some(sum) = left.checked_add(right) else {
            return Err(Stop::Refused(OUT_OF_RANGE));
        };
        self.top -= 1;
        self.values[self.top - 1] = sum as u32;
        Ok(())
    }

    fn ifnot(&mut self, address: usize) -> Performed {
        self.needs(1)?;
        if self.pop() != 0 {
            self.address = address;
        }
        Ok(())
    }

    fn jump(&mut self, address: usize) -> Performed {
        self.address = address;
        Ok(())
    }

    fn slide(&mut self) -> Performed {
        self.needs(2)?;
        let word = self.pop();
        self.pop();
        self.push(word)
    }

    fn drop_word(&mut self) -> Performed {
        self.needs(1)?;
        self.top -= 1;
        Ok(())
    }

    fn write<const N: usize>(&mut self, bytes: [u8; N]) -> Performed {
        refuse_if(self.output.len() - self.written < N, OUTPUT_FULL)?;
        self.output[self.written..self.written + N].copy_from_slice(&bytes);
        self.written += N;
        Ok(())
    }

    fn write_number(&mut self) -> Performed {
        self.needs(1)?;
        self.write(self.values[self.top - 1].to_le_bytes())?;
        self.top -= 1;
        Ok(())
    }

    fn read_tag(&mut self, node: usize) -> Performed {
        refuse_if(self.read >= self.input.len(), INPUT_ENDED)?;
        match self.input[self.read] {
            LEAF_TAG => {}
            NODE_TAG => self.address = node,
            _ => return Err(Stop::Refused(NOT_A_TAG)),
        }
        self.read += 1;
        Ok(())
    }

    fn read_number(&mut self) -> Performed {
        self.needs_room()?;
        refuse_if(self.input.len() - self.read < 4, INPUT_ENDED)?;
        let mut label = [0; 4];
        label.copy_from_slice(&self.input[self.read..self.read + 4]);
        self.read += 4;
        self.push(u32::from_le_bytes(label))
    }

    fn call(&mut self, entry: usize, arguments: usize) -> Performed {
        self.needs(arguments)?;
        refuse_if(self.open >= MOST_OPEN, TOO_MANY_CALLS)?;
        self.returns[2 * self.open] = self.address as u64;
        self.returns[2 * self.open + 1] = self.base as u64;
        self.open += 1;
        self.base = self.top - arguments;
        self.address = entry;
        Ok(())
    }

    fn give_back(&mut self, kept: usize) -> Performed {
        refuse_if(kept > 1, CANNOT_PERFORM)?;
        self.needs(kept)?;
        let word = if kept == 1 { self.pop() } else { 0 };
        if self.open == 1 {
            return Err(Stop::Ended(word));
        }
        self.top = self.base;
        self.open -= 1;
        self.address = self.returns[2 * self.open] as usize;
        self.base = self.returns[2 * self.open + 1] as usize;
        match kept {
            1 => self.push(word),
            _ => Ok(()),
        }
    }

    fn answer(&self, units: u64, stop: Stop) -> Ran {
        let position = self.read as u64;
        let (refused, units, word) = match stop {
            Stop::Ended(word) => (None, units + 1, word),
            Stop::Refused(number) => (Some(Refused { number, position }), units, 0),
        };
        Ran {
            refused,
            units,
            read: self.read,
            written: self.written,
            number: word as i32,
        }
    }
}

/// The stream run; see `hogvax::perform_into`. Not inlined, so that its
/// machine instructions can be distinguished.
#[inline(never)]
pub fn safe_perform(
    code: &[u8],
    input: &[u8],
    fuel: u64,
    output: &mut [u8],
    values: &mut [u32],
    returns: &mut [u64],
) -> Ran {
    let too_short = values.len() < VALUE_WORDS || returns.len() < RETURN_WORDS;
    let mut machine = Machine::new(input, output, values, returns);
    if too_short {
        return machine.answer(0, Stop::Refused(SPACE_TOO_SHORT));
    }
    let (instructions, _) = code.as_chunks::<8>();
    let instructions = &instructions[..instructions.len().min(MOST_INSTRUCTIONS)];
    let mut units = 0;
    let stop = loop {
        if units == fuel {
            break Stop::Refused(FUEL_USED_UP);
        }
        let Some(&bytes) = instructions.get(machine.address) else {
            break Stop::Refused(CANNOT_PERFORM);
        };
        machine.address += 1;
        if let Err(stop) = machine.perform(Instruction::from_bytes(bytes)) {
            break stop;
        }
        units += 1;
    };
    machine.answer(units, stop)
}
