//! Code with names for addresses: "t, ifnot L, z, jump M, L: o, M:".

use std::collections::BTreeMap;

use crate::machine::Instruction;

/// A name for an address. Those below the number of functions name the
/// functions' entries.
pub type Label = usize;

/// A line of code with names for addresses.
#[derive(Clone, Copy, Debug, PartialEq, Eq)]
pub enum Line {
    /// An instruction as it will stand.
    Whole(Instruction),
    /// An instruction whose operand is the address named.
    To(Instruction, Label),
    /// The name of the address of the next instruction.
    Here(Label),
}

/// The instructions, with addresses for their names.
pub fn resolved(lines: &[Line]) -> Vec<Instruction> {
    let addresses = addresses(lines);
    let instructions = lines.iter().filter_map(|line| match *line {
        Line::Whole(instruction) => Some(instruction),
        Line::To(instruction, label) => Some(Instruction {
            operand: addresses[&label],
            ..instruction
        }),
        Line::Here(_) => None,
    });
    instructions.collect()
}

/// What each name stands for: the number of instructions before it.
fn addresses(lines: &[Line]) -> BTreeMap<Label, u16> {
    let mut addresses = BTreeMap::new();
    let mut before = 0;
    for line in lines {
        match *line {
            Line::Here(label) => {
                let other = addresses.insert(label, before);
                assert!(other.is_none(), "an address has a name of its own");
            }
            _ => before += 1,
        }
    }
    addresses
}
