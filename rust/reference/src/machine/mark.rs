//! Where and why a run stops, finer than the numbers of the table.

use crate::sum::{EndSums, SUM_OUT_OF_RANGE};

/// Why a run stops.
#[derive(Clone, Copy, Debug, PartialEq, Eq, PartialOrd, Ord, Hash)]
pub enum Cause {
    /// The first frame returned and kept no word.
    EndedWithNone,
    /// The first frame returned and kept a word.
    EndedWithOne,
    /// 13: value words or return words.
    WorkTooShort,
    /// 14: fuel 0.
    NoFuel,
    /// 14: after at least one instruction.
    FuelUsedUp,
    /// 15: no byte is left, at read tag or read number.
    InputEnded,
    /// 15: 1 to 3 bytes are left, at read number.
    LabelNotWhole,
    /// 16: at read tag.
    NotATag,
    /// 17: no byte is free, at leaf tag, node tag or write number.
    OutputFull,
    /// 17: 1 to 3 bytes are free, at write number.
    OutputShort,
    /// 18: a call with 1,024 open.
    CallsOpen,
    /// 19: no byte of code stands at the address.
    PastTheEnd,
    /// 19: 1 to 7 bytes of code stand at the address.
    InstructionNotWhole,
    /// 19: an address from 4,128 up where 8 whole bytes stand.
    AddressTooHigh,
    /// 19: an opcode above 13.
    NotAnOpcode,
    /// 19: a return with byte 1 above 1.
    ReturnByte,
    /// 19: more words are needed than the whole stack has.
    MissingWords,
    /// 19: the stack has the words needed, but not above the frame's base.
    WordsBelowBase,
    /// 19: a word more than 16,384.
    SurplusWords,
    /// 21: at add.
    SumOutOfRange,
}

impl Cause {
    pub const ALL: [Cause; 20] = [
        Cause::EndedWithNone,
        Cause::EndedWithOne,
        Cause::WorkTooShort,
        Cause::NoFuel,
        Cause::FuelUsedUp,
        Cause::InputEnded,
        Cause::LabelNotWhole,
        Cause::NotATag,
        Cause::OutputFull,
        Cause::OutputShort,
        Cause::CallsOpen,
        Cause::PastTheEnd,
        Cause::InstructionNotWhole,
        Cause::AddressTooHigh,
        Cause::NotAnOpcode,
        Cause::ReturnByte,
        Cause::MissingWords,
        Cause::WordsBelowBase,
        Cause::SurplusWords,
        Cause::SumOutOfRange,
    ];

    /// The refusal's number; none where the run ended.
    pub fn number(self) -> Option<u8> {
        match self {
            Cause::EndedWithNone | Cause::EndedWithOne => None,
            Cause::WorkTooShort => Some(13),
            Cause::NoFuel | Cause::FuelUsedUp => Some(14),
            Cause::InputEnded | Cause::LabelNotWhole => Some(15),
            Cause::NotATag => Some(16),
            Cause::OutputFull | Cause::OutputShort => Some(17),
            Cause::CallsOpen => Some(18),
            Cause::PastTheEnd
            | Cause::InstructionNotWhole
            | Cause::AddressTooHigh
            | Cause::NotAnOpcode
            | Cause::ReturnByte
            | Cause::MissingWords
            | Cause::WordsBelowBase
            | Cause::SurplusWords => Some(19),
            Cause::SumOutOfRange => Some(SUM_OUT_OF_RANGE),
        }
    }
}

/// A cause with the opcode where it is reported. There is no opcode at 13, at 14,
/// at an address without an instruction and at a byte that is no opcode. A
/// run that ended is marked at its return.
#[derive(Clone, Copy, Debug, PartialEq, Eq, PartialOrd, Ord, Hash)]
pub struct Mark {
    pub opcode: Option<u8>,
    pub cause: Cause,
}

impl Mark {
    pub fn at(opcode: u8, cause: Cause) -> Mark {
        Mark {
            opcode: Some(opcode),
            cause,
        }
    }

    pub fn alone(cause: Cause) -> Mark {
        Mark {
            opcode: None,
            cause,
        }
    }

    pub fn number(self) -> Option<u8> {
        self.cause.number()
    }
}

/// Where a run stopped, and the refusal that a later test would have reported:
/// after a 14 any other, after a 19 one of 15 to 18, or 21 where the words of
/// the sum stand below the frame's base.
#[derive(Clone, Copy, Debug, PartialEq, Eq)]
pub struct Stop {
    pub mark: Mark,
    pub hidden: Option<Mark>,
}

impl Stop {
    /// A stop that hides nothing.
    pub fn plain(mark: Mark) -> Stop {
        Stop { mark, hidden: None }
    }
}

/// A run instruction by instruction.
#[derive(Clone, Debug, PartialEq, Eq)]
pub struct Trace {
    /// The addresses of the instructions performed.
    pub addresses: Vec<usize>,
    /// The address where the run stopped, of the last return if it ended.
    pub address: usize,
    /// The words of the whole stack there, before the last return if it ended.
    pub words: usize,
    /// The calls open there, the first frame included; 0 at 13.
    pub open: usize,
    /// Of the adds performed.
    pub end_sums: EndSums,
    pub stop: Stop,
}
