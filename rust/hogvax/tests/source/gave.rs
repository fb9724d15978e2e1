//! What a call gives that makes a source run.

use hogvax::{Refused, Sourced};

use super::run_call;

/// The slots of its answer: the refusal's position, the expressions begun, the bytes
/// written, the number, and the tips and the depth of the tree.
pub const SLOTS: usize = 6;

pub type Gave = run_call::Gave<SLOTS>;

/// The slots on a refusal. N5: "A refusal of the reader or the source run gives 0 for
/// both."
pub fn refused_slots(position: u64, begun: u64) -> [u64; SLOTS] {
    [position, begun, 0, 0, 0, 0]
}

impl Gave {
    /// What the reference's source run gives.
    pub fn told(sourced: reference::Sourced, output: Vec<u8>) -> Gave {
        let position = sourced.refused.map_or(0, |refusal| refusal.position as u64);
        let number = i64::from(sourced.number) as u64;
        let [written, tips, depth] =
            [sourced.written, sourced.tips, sourced.depth].map(|count| count as u64);
        Gave {
            number: sourced.refused.map_or(0, |refusal| refusal.number.into()),
            slots: [position, sourced.begun, written, number, tips, depth],
            output,
            code: vec![],
        }
    }

    /// The answer as the safe calls give it.
    pub fn sourced(&self) -> Sourced {
        let (number, [position, begun, written, word, tips, depth]) = (self.number, self.slots);
        Sourced {
            refused: (number != 0).then_some(Refused { number, position }),
            begun,
            written: written as usize,
            number: word as i32,
            tips: tips as usize,
            depth: depth as usize,
        }
    }
}
