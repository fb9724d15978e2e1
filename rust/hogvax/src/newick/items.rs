//! Names, whitespace and comments.

use super::chars::Chars;
use crate::Fault;

impl<I: Iterator<Item = u8>> Chars<I> {
    /// Reads a name, bare or in quotes. If there is none, `false`.
    pub fn read_name(&mut self, take: impl FnMut(char)) -> Result<bool, Fault> {
        if self.next == Some('\'') {
            self.read_quoted(take)?;
            return Ok(true);
        }
        self.read_bare(take)
    }

    /// Reads a name without quotes. If there is none, `false`.
    pub fn read_bare(&mut self, mut take: impl FnMut(char)) -> Result<bool, Fault> {
        let mut any = false;
        while let Some(character) = self.next.filter(is_bare) {
            take(character);
            any = true;
            self.advance()?;
        }
        Ok(any)
    }

    /// Reads a name in quotes, in which two quotes stand for one.
    fn read_quoted(&mut self, mut take: impl FnMut(char)) -> Result<(), Fault> {
        let place = self.place;
        self.advance()?;
        while let Some(character) = self.next {
            self.advance()?;
            if character == '\'' {
                if self.next != Some('\'') {
                    return Ok(());
                }
                self.advance()?;
            }
            take(character);
        }
        let message = "this quote is not closed".to_owned();
        Err(Fault { place, message })
    }

    /// Skips whitespace and comments.
    pub fn skip_blank(&mut self) -> Result<(), Fault> {
        loop {
            match self.next {
                Some(' ' | '\t' | '\r' | '\n') => self.advance()?,
                Some('[') => self.skip_comment()?,
                _ => return Ok(()),
            }
        }
    }

    /// Skips a comment, which may hold others.
    fn skip_comment(&mut self) -> Result<(), Fault> {
        let place = self.place;
        let mut open: u64 = 0;
        while let Some(character) = self.next {
            self.advance()?;
            match character {
                '[' => open += 1,
                ']' if open == 1 => return Ok(()),
                ']' => open -= 1,
                _ => {}
            }
        }
        let message = "this comment is not closed".to_owned();
        Err(Fault { place, message })
    }
}

/// Whether a name without quotes may have this character.
fn is_bare(character: &char) -> bool {
    match character {
        ' ' | '(' | ')' | '[' | ']' | '\'' | ':' | ';' | ',' => false,
        _ => !character.is_control(),
    }
}
