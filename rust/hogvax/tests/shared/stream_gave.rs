//! What a call gives that makes a stream run.

use hogvax::{Ran, Refused};

use crate::run_call;

pub type Gave = run_call::Gave<5>;

/// The slot of the answer that counts the bytes written.
pub const WRITTEN: usize = 3;

impl Gave {
    /// What the reference's run gives.
    pub fn told(ran: reference::Ran, output: Vec<u8>, code: Vec<u8>) -> Gave {
        let position = ran.refusal.map_or(0, |refusal| refusal.position as u64);
        let (read, written) = (ran.read as u64, ran.written as u64);
        let number = i64::from(ran.number) as u64;
        Gave {
            number: ran.refusal.map_or(0, |refusal| refusal.number.into()),
            slots: [position, ran.units, read, written, number],
            output,
            code,
        }
    }

    /// The answer as the safe calls give it.
    pub fn ran(&self) -> Ran {
        let (number, [position, units, read, written, word]) = (self.number, self.slots);
        Ran {
            refused: (number != 0).then_some(Refused { number, position }),
            units,
            read: read as usize,
            written: written as usize,
            number: word as i32,
        }
    }
}
