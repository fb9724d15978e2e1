//! The words that follow a verb: operands and options.

use std::ffi::{OsStr, OsString};

use crate::exit_status::Trouble;

/// What follows an option.
#[derive(Clone, Copy)]
pub enum Takes {
    Nothing,
    /// The name of a file, or `-`.
    File,
    /// A decimal number. Whatever word follows is meant as one, so that
    /// `Words::number` can say that it is none.
    Number,
}

/// The words that follow a verb, sorted.
pub struct Words<'a> {
    operands: Vec<&'a OsStr>,
    options: Vec<(&'a OsStr, &'a OsStr)>,
}

impl<'a> Words<'a> {
    /// The words of a verb that has these options. `None` if there is another
    /// one, one without what it takes, or one twice.
    pub fn sort(words: &'a [OsString], options: &[(&str, Takes)]) -> Option<Words<'a>> {
        let mut sorted = Words {
            operands: Vec::new(),
            options: Vec::new(),
        };
        let mut words = words.iter().map(OsString::as_os_str);
        while let Some(word) = words.next() {
            if !looks_like_an_option(word) {
                sorted.operands.push(word);
                continue;
            }
            let &(option, takes) = options.iter().find(|&&(option, _)| word == option)?;
            if sorted.has(option) {
                return None;
            }
            let value = match takes {
                Takes::Nothing => OsStr::new(""),
                Takes::File => words.next().filter(|value| !looks_like_an_option(value))?,
                Takes::Number => words.next()?,
            };
            sorted.options.push((word, value));
        }
        Some(sorted)
    }

    /// Whether an option is given.
    pub fn has(&self, option: &str) -> bool {
        self.value(option).is_some()
    }

    /// The value of an option, if it is given.
    pub fn value(&self, option: &str) -> Option<&'a OsStr> {
        let mut options = self.options.iter();
        let (_, value) = options.find(|(name, _)| *name == option)?;
        Some(value)
    }

    /// The number that an option gives, if it is given.
    pub fn number(&self, option: &str) -> Result<Option<u64>, Trouble> {
        let Some(word) = self.value(option) else {
            return Ok(None);
        };
        let digits = word.to_str().filter(|word| is_decimal(word));
        // Digits fail to parse where their number is too large.
        let number = digits.and_then(|digits| digits.parse().ok());
        number.map(Some).ok_or_else(|| {
            let (most, word) = (u64::MAX, word.to_string_lossy());
            Trouble(format!(
                "{option} takes a decimal number up to {most}, not '{word}'"
            ))
        })
    }

    /// The operand of a verb with at most one file; `-` if there is none.
    pub fn one_file(&self) -> Option<&'a OsStr> {
        match self.operands[..] {
            [] => Some(OsStr::new("-")),
            [file] => Some(file),
            _ => None,
        }
    }

    /// The operands of a verb with a file and at most one more; `-` for the
    /// second if there is none.
    pub fn two_files(&self) -> Option<(&'a OsStr, &'a OsStr)> {
        match self.operands[..] {
            [first] => Some((first, OsStr::new("-"))),
            [first, second] => Some((first, second)),
            _ => None,
        }
    }
}

/// Whether a word has digits and nothing else: `parse` would take a sign too.
pub fn is_decimal(word: &str) -> bool {
    !word.is_empty() && word.bytes().all(|byte| byte.is_ascii_digit())
}

/// A lone `-` stands for standard input or output.
fn looks_like_an_option(word: &OsStr) -> bool {
    word != "-" && word.as_encoded_bytes().starts_with(b"-")
}
