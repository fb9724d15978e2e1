//! From Newick to tokens.

use super::chars::Chars;
use super::names::{shown, Length, Name};
use crate::{Fault, Place};

/// A fork under so many others is refused: the tree reader takes none.
const MOST_DEPTH: usize = 1_024;

/// The trees of a Newick text, and what was skipped.
#[derive(Clone, Debug, Default, PartialEq, Eq)]
pub struct Trees {
    /// The tokens of all trees, back to back.
    pub tokens: Vec<u8>,
    /// How many trees there are.
    pub trees: usize,
    /// How many branch lengths were skipped.
    pub lengths: usize,
    /// How many names of forks were skipped.
    pub names: usize,
}

/// The trees of a Newick text, each closed by `;`, or the first fault from the
/// left.
///
/// A tip is a whole number of 32 bits, bare or in quotes. A fork has two
/// branches. Names of forks, branch lengths and comments in brackets are
/// skipped. [`tree`](crate::tree) reads every tree of the tokens.
///
/// ```
/// let text = b"(5, -1:0.25)95; [a comment] '7';";
/// let trees = hogvax::newick::read(text).unwrap();
/// let tokens = [2, 1, 5, 0, 0, 0, 1, 255, 255, 255, 255, 1, 7, 0, 0, 0];
/// assert_eq!(trees.tokens, tokens);
/// assert_eq!((trees.trees, trees.lengths, trees.names), (2, 1, 1));
///
/// let fault = hogvax::newick::read(b"(1,\n 2, 3);").unwrap_err();
/// let message = "2:3: a fork has two branches, and this is a third";
/// assert_eq!(fault.to_string(), message);
/// ```
pub fn read(text: &[u8]) -> Result<Trees, Fault> {
    read_bytes(text.iter().copied())
}

/// As [`read`], from bytes that come one by one. No more are taken than it
/// needs to report a fault, so a text without end may be refused.
pub fn read_bytes(bytes: impl Iterator<Item = u8>) -> Result<Trees, Fault> {
    let mut reader = Reader {
        chars: Chars::new(bytes)?,
        open: Vec::new(),
        trees: Trees::default(),
    };
    while reader.is_another()? {
        reader.read_tree()?;
    }
    Ok(reader.trees)
}

/// A fork that is not closed yet.
struct Fork {
    /// Where its `(` stands.
    place: Place,
    /// Whether its first branch is read.
    first: bool,
}

struct Reader<I> {
    chars: Chars<I>,
    /// The forks that are not closed yet, the innermost last.
    open: Vec<Fork>,
    trees: Trees,
}

// Trees

impl<I: Iterator<Item = u8>> Reader<I> {
    /// Whether there is another tree.
    fn is_another(&mut self) -> Result<bool, Fault> {
        self.chars.skip_blank()?;
        Ok(self.chars.next.is_some())
    }

    fn read_tree(&mut self) -> Result<(), Fault> {
        loop {
            self.read_to_tip()?;
            if !self.read_to_branch()? {
                self.trees.trees += 1;
                return Ok(());
            }
        }
    }

    /// Reads the forks that begin here, then a tip.
    fn read_to_tip(&mut self) -> Result<(), Fault> {
        self.chars.skip_blank()?;
        while self.chars.next == Some('(') {
            self.open_fork()?;
            self.chars.skip_blank()?;
        }
        self.read_tip()
    }

    fn open_fork(&mut self) -> Result<(), Fault> {
        if self.open.len() == MOST_DEPTH {
            let message = "a fork under 1,024 others: no tree may be so deep";
            return Err(self.chars.fault(message));
        }
        let place = self.chars.place;
        self.open.push(Fork {
            place,
            first: false,
        });
        self.trees.tokens.push(2);
        self.chars.advance()
    }

    fn read_tip(&mut self) -> Result<(), Fault> {
        let place = self.chars.place;
        let mut name = Name::default();
        if !self.chars.read_name(|character| name.take(character))? {
            return Err(self.no_tip());
        }
        let label = name.label().map_err(|message| Fault { place, message })?;
        self.trees.tokens.push(1);
        self.trees.tokens.extend(label.to_le_bytes());
        Ok(())
    }

    /// Reads what follows a tip, up to where another branch begins. If the
    /// tree ends before, `false`.
    fn read_to_branch(&mut self) -> Result<bool, Fault> {
        loop {
            self.read_length()?;
            match (self.chars.next, self.open.last_mut()) {
                (Some(','), Some(fork)) if !fork.first => {
                    fork.first = true;
                    self.chars.advance()?;
                    return Ok(true);
                }
                (Some(')'), Some(fork)) if fork.first => {
                    self.open.pop();
                    self.chars.advance()?;
                    self.read_fork_name()?;
                }
                (Some(';'), None) => {
                    self.chars.advance()?;
                    return Ok(false);
                }
                _ => return Err(self.misplaced()),
            }
        }
    }

    fn read_fork_name(&mut self) -> Result<(), Fault> {
        self.chars.skip_blank()?;
        if self.chars.read_name(|_| ())? {
            self.trees.names += 1;
        }
        Ok(())
    }

    /// Reads a branch length, if there is one, and what is blank about it.
    fn read_length(&mut self) -> Result<(), Fault> {
        self.chars.skip_blank()?;
        if self.chars.next != Some(':') {
            return Ok(());
        }
        self.chars.advance()?;
        self.chars.skip_blank()?;
        let place = self.chars.place;
        let mut length = Length::default();
        if !self.chars.read_bare(|character| length.take(character))? {
            let message = "a branch length follows ':', and here is none";
            return Err(self.chars.fault(message));
        }
        length.check().map_err(|message| Fault { place, message })?;
        self.trees.lengths += 1;
        self.chars.skip_blank()
    }
}

// Faults

impl<I: Iterator<Item = u8>> Reader<I> {
    /// What is wrong where a branch is to begin and none does.
    fn no_tip(&self) -> Fault {
        let message = match (self.chars.next, self.open.last()) {
            (None, Some(fork)) => unclosed(fork),
            (Some(')'), None) => "no '(' for this ')'".to_owned(),
            (Some(',' | ')' | ':' | ';'), _) => "a tip has a label, and here is none".to_owned(),
            (next, _) => format!("a tip or a fork expected, and here is {}", shown(next)),
        };
        self.chars.fault(message)
    }

    /// What is wrong where a branch is read and what follows does not fit.
    fn misplaced(&self) -> Fault {
        let next = self.chars.next;
        let message = match (next, self.open.last()) {
            (None | Some(';'), Some(fork)) => unclosed(fork),
            (None, None) => "the tree has no ';' at its end".to_owned(),
            (Some(')'), None) => "no '(' for this ')'".to_owned(),
            (Some(')'), Some(_)) => "a fork has two branches, and this one has 1".to_owned(),
            (Some(','), Some(_)) => "a fork has two branches, and this is a third".to_owned(),
            (_, None) => format!("';' expected, and here is {}", shown(next)),
            (_, Some(fork)) => {
                let expected = if fork.first { ')' } else { ',' };
                format!("'{expected}' expected, and here is {}", shown(next))
            }
        };
        self.chars.fault(message)
    }
}

fn unclosed(fork: &Fork) -> String {
    format!("no ')' for the '(' at {}", fork.place)
}
