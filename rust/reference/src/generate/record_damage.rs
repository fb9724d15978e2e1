//! Damage to a program's records, each kind aimed at one refusal.

use crate::program::{FUNCTION_LIMIT, NODE_LIMIT, PARAMETER_LIMIT};
use crate::random::Random;
use crate::tree::Refusal;

mod rows;

use rows::{byte_above, one_byte, other, Rows};

/// A kind of damage to the records of a program.
#[derive(Clone, Copy, Debug, PartialEq, Eq)]
pub enum RecordDamage {
    /// 4: an edition that isn't 1.
    Edition,
    /// 4: no functions or more than 32, with that many records or not.
    FunctionRange,
    /// 4: from 1 to 32 functions, but not the number there are.
    FunctionNumber,
    /// 4: no nodes or more than 1,024, with that many records or not.
    NodeRange,
    /// 4: from 1 to 1,024 nodes, but not the number there are.
    NodeNumber,
    /// 4: a byte from 4 to 7 of the header is not zero.
    HeaderRest,
    /// 4: records too many or too few.
    RecordCount,
    /// 5: a result above 1.
    FunctionResult,
    /// 5: more than 4 number parameters.
    FunctionParameters,
    /// 5: number parameters of function 0, 1 to 4 of them.
    FirstParameters,
    /// 5: a count of 0, the sum being right or not.
    ZeroCount,
    /// 5: a byte from 4 to 7 of a function record is not zero.
    FunctionRest,
    /// 5: a wrong sum of counts, none of them 0.
    CountSum,
    /// 5: a wrong sum of counts that is right modulo 65,536.
    CountSumModulo,
    /// 6: a kind above 8.
    Kind,
    /// 6: a field not used by its kind is not zero.
    UnusedField,
    /// 6: a Call's b not below F.
    CalledFunction,
    /// 7: nodes counted to another function, all nodes still being one
    /// expression after the other.
    MovedNodes,
    /// 7: a record in the place of one with another number of parts.
    OtherParts,
    /// 7: other number parameters of a function that is called.
    CalledParameters,
}

impl RecordDamage {
    pub const ALL: [RecordDamage; 20] = [
        RecordDamage::Edition,
        RecordDamage::FunctionRange,
        RecordDamage::FunctionNumber,
        RecordDamage::NodeRange,
        RecordDamage::NodeNumber,
        RecordDamage::HeaderRest,
        RecordDamage::RecordCount,
        RecordDamage::FunctionResult,
        RecordDamage::FunctionParameters,
        RecordDamage::FirstParameters,
        RecordDamage::ZeroCount,
        RecordDamage::FunctionRest,
        RecordDamage::CountSum,
        RecordDamage::CountSumModulo,
        RecordDamage::Kind,
        RecordDamage::UnusedField,
        RecordDamage::CalledFunction,
        RecordDamage::MovedNodes,
        RecordDamage::OtherParts,
        RecordDamage::CalledParameters,
    ];

    /// The number of the refusal that follows.
    pub fn number(self) -> u8 {
        match self {
            RecordDamage::Edition
            | RecordDamage::FunctionRange
            | RecordDamage::FunctionNumber
            | RecordDamage::NodeRange
            | RecordDamage::NodeNumber
            | RecordDamage::HeaderRest
            | RecordDamage::RecordCount => 4,
            RecordDamage::FunctionResult
            | RecordDamage::FunctionParameters
            | RecordDamage::FirstParameters
            | RecordDamage::ZeroCount
            | RecordDamage::FunctionRest
            | RecordDamage::CountSum
            | RecordDamage::CountSumModulo => 5,
            RecordDamage::Kind | RecordDamage::UnusedField | RecordDamage::CalledFunction => 6,
            RecordDamage::MovedNodes
            | RecordDamage::OtherParts
            | RecordDamage::CalledParameters => 7,
        }
    }

    /// The damaged records and their refusal, or none where the program has
    /// no place for the damage. The records given are right up to and with
    /// the row of that refusal; they may be wrong in later rows. There are at
    /// most 1,071 records then, so that they still fit in 17 blocks.
    pub fn apply(self, random: &mut Random, records: &[u8]) -> Option<(Vec<u8>, Refusal)> {
        let mut rows = Rows::new(records);
        let position = match self {
            RecordDamage::Edition => {
                rows.header.kind = other(random, 1, 0, 255) as u8;
                0
            }
            RecordDamage::FunctionRange => rows.function_range(random),
            RecordDamage::FunctionNumber => {
                rows.header.a = other(random, rows.functions.len(), 1, FUNCTION_LIMIT) as u8;
                0
            }
            RecordDamage::NodeRange => rows.node_range(random),
            RecordDamage::NodeNumber => {
                rows.header.b = other(random, rows.nodes.len(), 1, NODE_LIMIT) as u16;
                0
            }
            RecordDamage::HeaderRest => {
                rows.header.i = one_byte(random);
                0
            }
            RecordDamage::RecordCount => rows.record_count(random),
            RecordDamage::FunctionResult => {
                let k = random.below(rows.functions.len());
                rows.functions[k].kind = byte_above(random, 1);
                1 + k
            }
            RecordDamage::FunctionParameters => {
                let k = random.below(rows.functions.len());
                rows.functions[k].a = byte_above(random, PARAMETER_LIMIT as u8);
                1 + k
            }
            RecordDamage::FirstParameters => {
                rows.functions[0].a = 1 + random.below(PARAMETER_LIMIT) as u8;
                1
            }
            RecordDamage::ZeroCount => rows.zero_count(random),
            RecordDamage::FunctionRest => {
                let k = random.below(rows.functions.len());
                rows.functions[k].i = one_byte(random);
                1 + k
            }
            RecordDamage::CountSum => {
                let k = random.below(rows.functions.len());
                let count = usize::from(rows.functions[k].b);
                let most = random.pick(&[2, 1024, 65_535]);
                rows.functions[k].b = other(random, count, 1, most) as u16;
                rows.functions.len()
            }
            RecordDamage::CountSumModulo => rows.count_sum_modulo(random)?,
            RecordDamage::Kind => {
                let n = random.below(rows.nodes.len());
                rows.nodes[n].kind = byte_above(random, 8);
                rows.node_place(n)
            }
            RecordDamage::UnusedField => rows.unused_field(random),
            RecordDamage::CalledFunction => rows.called_function(random),
            RecordDamage::MovedNodes => rows.moved_nodes(random)?,
            RecordDamage::OtherParts => rows.other_parts(random),
            RecordDamage::CalledParameters => rows.called_parameters(random)?,
        };
        let refusal = Refusal {
            number: self.number(),
            position,
        };
        Some((rows.bytes(), refusal))
    }
}
