//! The machine. The tests of an instruction stand apart from its effect, so
//! that a stop can say what a later test would have reported.

use crate::sum::{exact_sum, EndSums};
use crate::tree::{Refusal, LEAF_TAG, NODE_TAG};

use super::{instruction_at, opcode, Cause, Instruction, Mark, Ran, Stop, Trace};
use super::{INSTRUCTION_BYTES, OPEN_LIMIT, VALUE_WORDS};

/// The bytes of a label.
const NUMBER_BYTES: usize = 4;

/// A call in progress: its words, the number of words in the frames below it,
/// and the address where its caller goes on.
struct Frame {
    words: Vec<i32>,
    below: usize,
    back: usize,
}

pub struct Machine<'a> {
    code: &'a [u8],
    input: &'a [u8],
    output: &'a mut [u8],
    /// The frames below the present one.
    callers: Vec<Frame>,
    frame: Frame,
    address: usize,
    units: u64,
    read: usize,
    written: usize,
    end_sums: EndSums,
}

impl<'a> Machine<'a> {
    /// "Any buffer may be run as code, from address 0"
    pub fn new(code: &'a [u8], input: &'a [u8], output: &'a mut [u8]) -> Machine<'a> {
        Machine {
            code,
            input,
            output,
            callers: Vec::new(),
            frame: Frame {
                words: Vec::new(),
                below: 0,
                back: 0,
            },
            address: 0,
            units: 0,
            read: 0,
            written: 0,
            end_sums: EndSums::default(),
        }
    }

    /// "One unit of fuel is one instruction performed."; "A refused
    /// instruction counts nothing and changes nothing. Fuel is looked at
    /// first. The run ends at the return of the first frame."
    pub fn run(&mut self, fuel: u64, mut performed: impl FnMut(usize)) -> Stop {
        loop {
            let tested = self.tested();
            if self.units == fuel {
                return self.out_of_fuel(tested.err());
            }
            let instruction = match tested {
                Ok(instruction) => instruction,
                Err(stop) => return stop,
            };
            performed(self.address);
            self.units += 1;
            if instruction.opcode == opcode::RETURN && self.callers.is_empty() {
                return ended(instruction);
            }
            self.address = self.effect(instruction);
        }
    }

    /// "14 fuel used up", whatever the next instruction would be refused for.
    fn out_of_fuel(&self, behind: Option<Stop>) -> Stop {
        let cause = match self.units {
            0 => Cause::NoFuel,
            _ => Cause::FuelUsedUp,
        };
        Stop {
            mark: Mark::alone(cause),
            hidden: behind.map(|stop| stop.mark),
        }
    }

    /// The next instruction, if it passes its tests: "At one instruction 19
    /// comes before 15 to 18", and before 21.
    fn tested(&self) -> Result<Instruction, Stop> {
        let instruction = self.fetch().map_err(Stop::plain)?;
        let at = |cause| Mark::at(instruction.opcode, cause);
        let bounds = self.test_bounds(instruction).map(at);
        match self.test_words(instruction).map(at) {
            Some(mark) => Err(Stop {
                mark,
                hidden: bounds,
            }),
            None => bounds.map_or(Ok(instruction), |mark| Err(Stop::plain(mark))),
        }
    }

    /// "an address is tested when its instruction is fetched"
    fn fetch(&self) -> Result<Instruction, Mark> {
        match instruction_at(self.code, self.address) {
            None => Err(Mark::alone(self.no_instruction())),
            Some(found) if found.opcode > opcode::RETURN => Err(Mark::alone(Cause::NotAnOpcode)),
            Some(found) => Ok(found),
        }
    }

    fn no_instruction(&self) -> Cause {
        let start = self.address * INSTRUCTION_BYTES;
        match self.code.len().saturating_sub(start) {
            0 => Cause::PastTheEnd,
            1..INSTRUCTION_BYTES => Cause::InstructionNotWhole,
            _ => Cause::AddressTooHigh,
        }
    }

    /// 19 for "return byte, missing or surplus words"; "words are missing
    /// above the frame's base, surplus above 16,384".
    fn test_words(&self, instruction: Instruction) -> Option<Cause> {
        let needed = instruction.words_needed();
        if instruction.opcode == opcode::RETURN && instruction.byte1 > 1 {
            Some(Cause::ReturnByte)
        } else if needed > self.words() {
            Some(Cause::MissingWords)
        } else if needed > self.frame.words.len() {
            Some(Cause::WordsBelowBase)
        } else if adds_a_word(instruction) && self.words() >= VALUE_WORDS {
            Some(Cause::SurplusWords)
        } else {
            None
        }
    }

    /// 15 to 18, and 21.
    fn test_bounds(&self, instruction: Instruction) -> Option<Cause> {
        match instruction.opcode {
            opcode::LEAF_TAG | opcode::NODE_TAG => self.test_output(1),
            opcode::WRITE_NUMBER => self.test_output(NUMBER_BYTES),
            opcode::READ_TAG => self.test_tag(),
            opcode::READ_NUMBER => self.test_label(),
            opcode::CALL if self.open() >= OPEN_LIMIT => Some(Cause::CallsOpen),
            opcode::ADD => self.test_sum(),
            _ => None,
        }
    }

    /// 21, for the two upper words of the whole stack; where one of them
    /// stands below the frame's base, it is hidden by 19.
    fn test_sum(&self) -> Option<Cause> {
        let frames = self.callers.iter().chain([&self.frame]).rev();
        let mut words = frames.flat_map(|frame| frame.words.iter().rev());
        let (right, left) = (words.next()?, words.next()?);
        match exact_sum(*left, *right) {
            None => Some(Cause::SumOutOfRange),
            Some(_) => None,
        }
    }

    /// 17, so many bytes being written together or none.
    fn test_output(&self, count: usize) -> Option<Cause> {
        match self.output.len() - self.written {
            0 => Some(Cause::OutputFull),
            free if free < count => Some(Cause::OutputShort),
            _ => None,
        }
    }

    /// "15 input ended, 16 byte not 1 or 2"
    fn test_tag(&self) -> Option<Cause> {
        match self.input.get(self.read) {
            None => Some(Cause::InputEnded),
            Some(&LEAF_TAG | &NODE_TAG) => None,
            Some(_) => Some(Cause::NotATag),
        }
    }

    /// 15: "Four bytes are read or written together or none."
    fn test_label(&self) -> Option<Cause> {
        match self.input.len() - self.read {
            0 => Some(Cause::InputEnded),
            1..NUMBER_BYTES => Some(Cause::LabelNotWhole),
            _ => None,
        }
    }

    /// Performs an instruction that passed its tests, the first frame's return
    /// aside: the next address.
    fn effect(&mut self, instruction: Instruction) -> usize {
        let operand = usize::from(instruction.operand);
        let next = self.address + 1;
        let operand_if = |taken| if taken { operand } else { next };
        match instruction.opcode {
            opcode::PUSH => self.push(instruction.number as i32),
            opcode::GET => self.push(self.frame.words[operand]),
            opcode::ADD => self.add(),
            opcode::IFNOT => return operand_if(self.pop() != 0),
            opcode::JUMP => return operand,
            opcode::SLIDE => self.slide(),
            opcode::DROP => self.drop_word(),
            opcode::LEAF_TAG => self.write(&[LEAF_TAG]),
            opcode::NODE_TAG => self.write(&[NODE_TAG]),
            opcode::WRITE_NUMBER => self.write_number(),
            opcode::READ_TAG => return operand_if(self.read_tag() == NODE_TAG),
            opcode::READ_NUMBER => self.read_number(),
            opcode::CALL => return self.call(instruction),
            opcode::RETURN => return self.ret(instruction),
            _ => unreachable!("opcodes above 13 are refused"),
        }
        next
    }

    fn push(&mut self, word: i32) {
        self.frame.words.push(word);
    }

    fn pop(&mut self) -> i32 {
        self.frame.words.pop().expect("a word above the base")
    }

    /// N3: "Add now refuses where the exact sum lies outside" the range, so
    /// that here it lies inside.
    fn add(&mut self) {
        let right = self.pop();
        let left = self.pop();
        let sum = exact_sum(left, right).expect("a sum in range");
        self.end_sums.count(sum);
        self.push(sum);
    }

    /// "slide (remove the word under the top)"
    fn slide(&mut self) {
        let top = self.pop();
        self.pop();
        self.push(top);
    }

    fn drop_word(&mut self) {
        self.pop();
    }

    fn write(&mut self, bytes: &[u8]) {
        let end = self.written + bytes.len();
        self.output[self.written..end].copy_from_slice(bytes);
        self.written = end;
    }

    fn write_number(&mut self) {
        let number = self.pop();
        self.write(&number.to_le_bytes());
    }

    fn read_tag(&mut self) -> u8 {
        self.read += 1;
        self.input[self.read - 1]
    }

    fn read_number(&mut self) {
        let mut bytes = [0; NUMBER_BYTES];
        bytes.copy_from_slice(&self.input[self.read..][..NUMBER_BYTES]);
        self.read += NUMBER_BYTES;
        self.push(i32::from_le_bytes(bytes));
    }

    /// "call (operand: entry; byte 1: arguments, the new frame's first words)"
    fn call(&mut self, instruction: Instruction) -> usize {
        let kept = self.frame.words.len() - usize::from(instruction.byte1);
        let opened = Frame {
            words: self.frame.words.split_off(kept),
            below: self.frame.below + kept,
            back: self.address + 1,
        };
        let caller = std::mem::replace(&mut self.frame, opened);
        self.callers.push(caller);
        instruction.operand.into()
    }

    /// "return (byte 1: 0 or 1 words kept; the frame is cut, that word
    /// pushed)"
    fn ret(&mut self, instruction: Instruction) -> usize {
        let kept = (instruction.byte1 == 1).then(|| self.pop());
        let caller = self.callers.pop().expect("not the first frame");
        let cut = std::mem::replace(&mut self.frame, caller);
        self.frame.words.extend(kept);
        cut.back
    }

    /// The words of all frames.
    fn words(&self) -> usize {
        self.frame.below + self.frame.words.len()
    }

    /// The calls open: "the first frame counts".
    fn open(&self) -> usize {
        self.callers.len() + 1
    }

    /// "Its answer gives units, bytes read, bytes written, and the number (0
    /// for a tree or a refusal)."; a refusal's position is the bytes read.
    pub fn answer(&self, stop: Stop) -> Ran {
        let number = match stop.mark.cause {
            Cause::EndedWithOne => self.frame.words.last().copied(),
            _ => None,
        };
        Ran {
            refusal: stop.mark.number().map(|number| Refusal {
                number,
                position: self.read,
            }),
            units: self.units,
            read: self.read,
            written: self.written,
            number: number.unwrap_or(0),
        }
    }

    pub fn trace(&self, stop: Stop, addresses: Vec<usize>) -> Trace {
        Trace {
            addresses,
            address: self.address,
            words: self.words(),
            open: self.open(),
            end_sums: self.end_sums,
            stop,
        }
    }
}

/// Whether an instruction leaves a word more than it finds.
fn adds_a_word(instruction: Instruction) -> bool {
    matches!(
        instruction.opcode,
        opcode::PUSH | opcode::GET | opcode::READ_NUMBER
    )
}

/// The stop at the first frame's return.
fn ended(instruction: Instruction) -> Stop {
    let cause = match instruction.byte1 {
        0 => Cause::EndedWithNone,
        _ => Cause::EndedWithOne,
    };
    Stop::plain(Mark::at(opcode::RETURN, cause))
}
