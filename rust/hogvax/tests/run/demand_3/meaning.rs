//! What the source evaluation of a program on a tree comes to.

use reference::{evaluate, Ended, Evaluation, Program, Tree};

/// "with at most 1,024 calls open at once"
const MOST_OPEN: usize = 1_024;

/// Longer evaluations are not followed.
const MOST_BEGUN: u64 = 200_000;

#[derive(Debug)]
pub enum Meaning {
    /// It ends, with at most 1,024 calls open at once.
    Ends(Ended),
    /// It ends, with more calls open.
    EndsBeyond(Ended),
    /// It opens more than 1,024 calls, and has no result as far as it was
    /// followed.
    Endless,
    /// It breaks off at a sum that is out of range, with at most 1,024 calls
    /// open at once: its code performs so many instructions before.
    Breaks { units: u64 },
}

impl Meaning {
    /// None where the evaluation is too long to be followed.
    pub fn of(program: &Program, tree: &Tree) -> Option<Meaning> {
        match evaluate(program, tree, MOST_OPEN, MOST_BEGUN) {
            Evaluation::Ended(ended) => return Some(Meaning::Ends(ended)),
            Evaluation::TooLong => return None,
            Evaluation::TooManyOpen { .. } => {}
            Evaluation::SumOutOfRange { units, .. } => return Some(Meaning::Breaks { units }),
        }
        match evaluate(program, tree, 4 * MOST_OPEN, MOST_BEGUN) {
            Evaluation::Ended(ended) => Some(Meaning::EndsBeyond(ended)),
            _ => Some(Meaning::Endless),
        }
    }

    /// The evaluation, where it has a result.
    pub fn ended(&self) -> Option<&Ended> {
        match self {
            Meaning::Ends(ended) | Meaning::EndsBeyond(ended) => Some(ended),
            Meaning::Endless | Meaning::Breaks { .. } => None,
        }
    }

    /// The evaluation, where it ends with at most 1,024 calls open at once.
    pub fn within(&self) -> Option<&Ended> {
        match self {
            Meaning::Ends(ended) => Some(ended),
            _ => None,
        }
    }
}
