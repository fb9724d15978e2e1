//! The words of a line after its first one, read one after another.

use std::fmt::Display;
use std::ops::RangeInclusive;
use std::str::FromStr;

use super::lines::Word;
use crate::{Fault, Place};

/// The words of a line that are still to be read.
pub struct Rest<'a> {
    words: &'a [Word<'a>],
    /// The place after the last word that was read.
    end: Place,
    /// What such a line has, for messages.
    form: String,
}

impl<'a> Rest<'a> {
    /// The words that follow `name`, which begins a line of this form.
    pub fn new(name: &Word, words: &'a [Word<'a>], form: String) -> Rest<'a> {
        let end = name.end();
        Rest { words, end, form }
    }

    /// The next word, which must be there.
    fn next(&mut self) -> Result<&'a Word<'a>, Fault> {
        let Some((word, rest)) = self.words.split_first() else {
            let (place, form) = (self.end, &self.form);
            let message = format!("the line ends too early; {form}");
            return Err(Fault { place, message });
        };
        (self.words, self.end) = (rest, word.end());
        Ok(word)
    }

    /// Takes one of these words, and says which.
    pub fn word(&mut self, expected: &[&str]) -> Result<usize, Fault> {
        let word = self.next()?;
        let found = expected.iter().position(|&expected| expected == word.text);
        found.ok_or_else(|| {
            let (found, expected, form) = (word.quoted(), expected.join("' or '"), &self.form);
            word.fault(format!(
                "{found} stands where '{expected}' is expected; {form}"
            ))
        })
    }

    /// Takes a number of this range. `what` says what the number is.
    pub fn number<T>(&mut self, what: &str, range: RangeInclusive<T>) -> Result<T, Fault>
    where
        T: FromStr + PartialOrd + Display,
    {
        let word = self.next()?;
        let number = decimal(word.text).filter(|number| range.contains(number));
        number.ok_or_else(|| {
            let (least, most, found) = (range.start(), range.end(), word.quoted());
            word.fault(format!("{what} is {least} to {most}, not {found}"))
        })
    }

    /// Takes the number whose turn it is. `what` says what it counts.
    pub fn turn(&mut self, what: &str, turn: usize) -> Result<(), Fault> {
        let word = self.next()?;
        if decimal(word.text) == Some(turn) {
            return Ok(());
        }
        let found = word.quoted();
        Err(word.fault(format!("{what} {turn}, not {found}")))
    }

    /// No word is left.
    pub fn close(self) -> Result<(), Fault> {
        let Some(word) = self.words.first() else {
            return Ok(());
        };
        let (found, form) = (word.quoted(), self.form);
        Err(word.fault(format!("{found} is too much; {form}")))
    }
}

/// The decimal number of a word. `parse` alone would take `+1`, too.
pub fn decimal<T: FromStr>(word: &str) -> Option<T> {
    let digits = word.strip_prefix('-').unwrap_or(word);
    let decimal = digits.bytes().all(|byte| byte.is_ascii_digit());
    decimal.then(|| word.parse().ok()).flatten()
}
