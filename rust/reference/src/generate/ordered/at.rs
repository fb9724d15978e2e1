//! Where an expression of a program in order stands.

use crate::order::pass_one::Context;

/// Where an expression stands: its context, the number of trees pending
/// after those that it is to take, and about how many records it may have.
#[derive(Clone, Copy)]
pub struct At {
    pub context: Context,
    pub behind: usize,
    pub size: usize,
}

impl At {
    /// A number part with so many more words.
    pub fn number(self, words: usize) -> At {
        let mut at = self;
        at.context.tree = false;
        at.context.words += words;
        at
    }

    /// A part where a number more is bound.
    pub fn one_more_number(self) -> At {
        let mut at = self;
        at.context.numbers += 1;
        at.context.words += 1;
        at
    }

    pub fn behind(self, more: usize) -> At {
        let behind = self.behind + more;
        At { behind, ..self }
    }

    pub fn size(self, size: usize) -> At {
        At { size, ..self }
    }
}
