//! Token files, read tree by tree.

use std::ffi::OsStr;

use hogvax::{Measures, Refused};

use crate::exit_status::{Outcome, Trouble};
use crate::input::Opening;
use crate::output;
use crate::printed_answer;

/// The refusal of a tree, or of a run, whose input ends too early.
const INPUT_ENDED: u32 = 15;

/// The refusal of a byte that is no tag.
const NOT_A_TAG: u32 = 16;

/// So many bytes are read at first, and then as many again where a tree is
/// longer.
const FIRST: usize = 1 << 20;

/// Whether a refusal says that there is too little input.
pub fn is_too_short(refused: &Refused) -> bool {
    refused.number == INPUT_ENDED
}

/// Reports on standard error that an input looks like Newick text, if it was
/// refused at its first byte and does: that is how people have their trees.
pub fn tell_of_newick(input: &Opening, refused: Option<Refused>) -> Result<(), Trouble> {
    let first = Refused {
        number: NOT_A_TAG,
        position: 0,
    };
    let begins = |byte: &u8| b"([".contains(byte);
    if refused != Some(first) || !input.bytes().first().is_some_and(begins) {
        return Ok(());
    }
    let name = input.name();
    output::tell(&format!(
        "notice: {name} looks like Newick text, which 'hogvax tokens' turns into tokens"
    ))
}

/// What the tree reader says of a tree.
type Read = Result<Measures, Refused>;

/// What the tree reader says of the bytes from this offset on.
fn read_tree(opening: &mut Opening, start: usize) -> Result<Read, Trouble> {
    let needs_more = |answer: &Read| answer.as_ref().is_err_and(is_too_short);
    opening.answer(needs_more, |bytes| Ok(hogvax::tree(&bytes[start..])))
}

/// What follows the trees that are read.
enum Next {
    /// A tree: where it begins in the file, and its measures.
    Tree(usize, Measures),
    /// The end of the file.
    End,
    /// No tree. The refusal's position is counted from the start of the file.
    Refused(Refused),
}

/// Token bytes, trees back to back. No more are read than the answer needs.
pub struct Trees {
    opening: Opening,
    /// Where the trees that are read end.
    end: usize,
}

/// What was asked for, or the refusal of the first tree that is refused, its
/// position counted from the start of the file.
type Answer<T> = Result<Result<T, Refused>, Trouble>;

impl Trees {
    pub fn open(file: &OsStr) -> Result<Trees, Trouble> {
        let opening = Opening::read(file, FIRST)?;
        Ok(Trees { opening, end: 0 })
    }

    /// What the tree reader says of the first tree, which must be there.
    pub fn first(&mut self) -> Answer<Measures> {
        read_tree(&mut self.opening, 0)
    }

    /// Prints a verb's answer, or the line that reports its refusal.
    pub fn print(&self, answer: Result<String, Refused>) -> Outcome {
        let refused = answer.as_ref().err().copied();
        let ended = printed_answer::print(answer)?;
        tell_of_newick(&self.opening, refused)?;
        Ok(ended)
    }

    /// The bytes of all trees.
    pub fn all(&mut self) -> Answer<&[u8]> {
        loop {
            match self.next()? {
                Next::Tree(..) => {}
                Next::End => return Ok(Ok(self.opening.bytes())),
                Next::Refused(refused) => return Ok(Err(refused)),
            }
        }
    }

    /// The bytes that begin with the tree of this number, and its measures. The
    /// first one has 1.
    pub fn tree(&mut self, number: u64) -> Answer<(&[u8], Measures)> {
        let mut count = 0;
        loop {
            match self.next()? {
                Next::Tree(start, measures) => {
                    count += 1;
                    if count == number {
                        return Ok(Ok((&self.opening.bytes()[start..], measures)));
                    }
                }
                Next::End => {
                    let name = self.opening.name();
                    let message = format!("{name}: no tree {number}; trees in it: {count}");
                    return Err(Trouble(message));
                }
                Next::Refused(refused) => return Ok(Err(refused)),
            }
        }
    }

    fn next(&mut self) -> Result<Next, Trouble> {
        let start = self.end;
        Ok(match read_tree(&mut self.opening, start)? {
            Ok(measures) => {
                self.end += measures.bytes;
                Next::Tree(start, measures)
            }
            Err(_) if start == self.opening.bytes().len() => Next::End,
            Err(refused) => Next::Refused(Refused {
                position: start as u64 + refused.position,
                ..refused
            }),
        })
    }
}
